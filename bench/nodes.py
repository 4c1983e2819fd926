#!/usr/bin/env python3
"""Measures OBJ beside plain Rust, and how the cost of nodes grows.

    nodes.py [--program FILE] [--most N] [--runs N] [--write]

OBJ: a grid of N points and N quads is read and written, and one of 0.72 N points with a texture coordinate and a normal
for each corner, for which a file of 64 MiB has room. The peer, bench/obj_peer.rs, is built with rustc -O into
.build/bench/ and must print the same bytes. A time is the median of the runs in seconds of the processor, less that of an
empty run; memory is the most that a run held. It checks that the program takes at most 2 times the peer's time and 2.5
times its memory, and less than 2 GB.

Nodes: a grid of R times R points, one node over it each, and its listing, at half of N points and at N. A time is less
that of the cook that only makes and writes what the node begins with. It checks that twice the points take at most 2.3
times as long, and 2.4 times where a group is made, and that a chain of 20 null and switch nodes over the grid holds as
much memory as the grid alone, but for 1 MB. The status is 0 where all of that holds. --write puts the tables of the whole
measurement into docs/BENCH.md.
"""
import argparse
import filecmp
import math
import multiprocessing
import os
import statistics
import sys
import tempfile

import page
from run import MOST, MOST_TIMES, SHORTEST, cook, rows_of, timed, write_faces, write_points
from timing import build_peer, ratio, shown, status_of, tell

MOST_OF_PEER = 2.0
MOST_MEMORY_OF_PEER = 2.5
MOST_BYTES = 2_000_000_000
VECTORS = 1000  # texture coordinates, and normals: a file of 64 MiB has no room for one a corner
CORNERS = 0.72  # so many times the points: what a file of 64 MiB holds then
MOST_TIMES_OF_GROUPS = 2.4
CHAIN = 20
CHAIN_BYTES = 1_000_000


def write_corner_vectors(file):
    for number in range(VECTORS):
        file.write(f"vt 0.{number:03d}5 0.25\n")
    for number in range(VECTORS):
        file.write(f"vn 0 1 0.{number:03d}5\n")


def write_corner_faces(file, count):
    """A quad for each point, whose corners name a texture coordinate and a normal."""
    rows = rows_of(count)
    columns = count // rows
    for row in range(rows):
        here, there = row * columns + 1, (row + 1) % rows * columns + 1
        for column in range(columns):
            beside = (column + 1) % columns
            corners = (here + column, here + beside, there + beside, there + column)
            file.write("f" + "".join(f" {it}/{it % VECTORS + 1}/{it % VECTORS + 1}" for it in corners) + "\n")


def make_obj(folder, count, with_corners):
    with open(f"{folder}/grid.obj", "w", encoding="ascii") as file:
        write_points(file, count)
        if with_corners:
            write_corner_vectors(file)
            write_corner_faces(file, count)
        else:
            write_faces(file, count, 0)
    with open(f"{folder}/cook.cmd", "w", encoding="ascii") as file:
        file.write("opadd file grid\nopparm grid file grid.obj\nopadd merge empty\n")


def apart(function, *args):
    """Makes files in another process: what this one holds would count as memory of the programs that it starts."""
    worker = multiprocessing.get_context("fork").Process(target=function, args=args)
    worker.start()
    worker.join()
    if worker.exitcode:
        sys.exit("the files can't be made")


def median_of(words, folder, runs):
    """The median of the seconds, the most memory, and the statuses other than 0."""
    ran = [timed(words, folder) for _ in range(runs)]
    return statistics.median(took for took, _, _ in ran), max(most for _, most, _ in ran), {status for _, _, status in ran} - {0}


def beside(program, peer, name, count, with_corners, runs, lines):
    """A line of the table of OBJ, and what doesn't hold."""
    with tempfile.TemporaryDirectory() as folder:
        apart(make_obj, folder, count, with_corners)
        empty, _, _ = median_of([program, "cook.cmd", "empty"], folder, runs)
        peer_empty, _, _ = median_of([peer], folder, runs)
        peer_took, peer_memory, _ = median_of([peer, "grid.obj"], folder, runs)
        os.rename(f"{folder}/got.obj", f"{folder}/want.obj")
        took, memory, statuses = median_of([program, "cook.cmd", "grid"], folder, runs)
        same = filecmp.cmp(f"{folder}/got.obj", f"{folder}/want.obj", shallow=False)
        size = os.path.getsize(f"{folder}/grid.obj")
    took, peer_took = took - empty, peer_took - peer_empty
    times, memory_times = ratio(took, peer_took), memory / peer_memory
    tell(lines, name, f"{count:,}", f"{size / 1e6:.1f} MB", f"{took:.2f} s", f"{peer_took:.2f} s", shown(times),
         f"{memory / 1e6:,.0f} MB", f"{peer_memory / 1e6:,.0f} MB", shown(memory_times))
    problems = [] if same and not statuses else [f"{name}, {count:,}: another answer"]
    if times is not None and times > MOST_OF_PEER:
        problems.append(f"{name}, {count:,}: {times:.2f} times the peer's time")
    if memory_times > MOST_MEMORY_OF_PEER:
        problems.append(f"{name}, {count:,}: {memory_times:.2f} times the peer's memory")
    if memory > MOST_BYTES:
        problems.append(f"{name}, {count:,}: {memory / 1e9:.2f} GB")
    return problems


# the name of a node, its type, and its parameters
OVER_GRID = (
    ("xform", "xform", 't "1 2 3" s "0.5 2 1"'),
    ("attribcreate", "attribcreate", 'name Cd kind vector value "1 0.5 0"'),
    ("enumerate", "enumerate", "name index"),
    ("few", "xform", 't "1 2 3" group 0-999999:1000'),
    ("all", "groupcreate", 'name g group "*"'),
    ("half", "groupcreate", "name g group 0-999999:2"),
    ("none", "blast", "group 999999999"),
    ("faces", "blast", "group 0-999999:2"),
    ("points", "blast", "class point group 0-999999:2"),
)


def commands(side):
    """A grid of so many points a side, nodes over it, and a chain of nodes that hand it on."""
    lines = [f"opadd grid grid\nopparm grid rows {side} cols {side}\n", "opadd merge empty\n"]
    for name, node_type, parms in OVER_GRID:
        lines.append(f"opadd {node_type} {name}\nopwire {name} 0 grid\nopparm {name} {parms}\n")
    before = "grid"
    for number in range(CHAIN):
        node_type = ("null", "switch")[number % 2]
        lines.append(f"opadd {node_type} c{number}\nopwire c{number} 0 {before}\n")
        before = f"c{number}"
    return "".join(lines)


# a name, its node, further words, and the node whose cook is taken off
NODES = (
    ("grid, written", "grid", (), "empty"),
    ("xform", "xform", (), "grid"),
    ("attribcreate, with its colours written", "attribcreate", (), "grid"),
    ("enumerate", "enumerate", (), "grid"),
    ("enumerate, listed", "enumerate", ("--form", "list"), "empty"),
    ("xform of each thousandth point", "few", (), "grid"),
    ("groupcreate by `*`", "all", (), "grid"),
    ("groupcreate by `0-999999:2`", "half", (), "grid"),
    ("blast of no face", "none", (), "grid"),
    ("blast of each second face, with the grid", "faces", (), "empty"),
    ("blast of each second point, with the grid", "points", (), "empty"),
)


def node_times(program, count, runs):
    """Seconds of each row, and the memory of the grid and of the chain over it."""
    with tempfile.TemporaryDirectory() as folder:
        with open(f"{folder}/cook.cmd", "w", encoding="ascii") as file:
            file.write(commands(math.isqrt(count)))

        def seconds(node, *more):
            return statistics.median(cook(program, folder, node, *more)[0] for _ in range(runs))

        less = {node: seconds(node) for node in ("empty", "grid")}
        times = [seconds(node, *more) - less[first] for _, node, more, first in NODES]
        memory = [max(cook(program, folder, node)[1] for _ in range(runs)) for node in ("grid", f"c{CHAIN - 1}")]
    return times, memory


def nodes(program, most, runs, lines):
    """Two lines for each row, half of the points and all, and what doesn't hold."""
    problems = []
    before, _ = node_times(program, most // 2, runs)
    now, (alone, chained) = node_times(program, most, runs)
    for (name, *_), half, whole in zip(NODES, before, now):
        times = whole / half if half >= SHORTEST / 4 else None
        tell(lines, name, f"{math.isqrt(most // 2) ** 2:,}", f"{half:.3f} s", "")
        tell(lines, name, f"{math.isqrt(most) ** 2:,}", f"{whole:.3f} s", shown(times))
        if times is not None and times > (MOST_TIMES_OF_GROUPS if name.startswith("groupcreate") else MOST_TIMES):
            problems.append(f"{name}: {times:.2f} times as long as half of it")
    tell(lines, f"{CHAIN} null and switch over the grid", f"{math.isqrt(most) ** 2:,}", f"{(chained - alone) / 1e6:.2f} MB more", "")
    if chained - alone > CHAIN_BYTES:
        problems.append(f"a chain of {CHAIN} holds {(chained - alone) / 1e6:.2f} MB more than the grid")
    return problems


def write(obj_lines, node_lines, runs):
    page.put(
        "OBJ beside plain Rust",
        "`bench/nodes.py --write` makes this table. A closed grid of N points and N quads is read and written, and one of fewer\n"
        "points with a texture coordinate and a normal for each corner, for which a file of 64 MiB has room; the peer,\n"
        "`bench/obj_peer.rs`, keeps flat arrays and prints the same\n"
        f"bytes. Times are seconds of the processor, the median of {runs} runs, less that of an empty run; memory is the most that\n"
        "a run held. The bounds that it checks: at most 2 times the peer's time and 2.5 times its memory, and less than 2 GB. The\n"
        "bound of time isn't met yet for points and quads alone.",
        obj_lines,
    )
    page.put(
        "How nodes cost",
        "`bench/nodes.py --write` makes this table too. A grid of so many points is made and written; a node over it, with the cook\n"
        f"of the grid taken off; and its listing. Times are seconds of the processor, the median of {runs} runs. The bounds that it\n"
        f"checks: twice the points take at most {MOST_TIMES} times as long, and {MOST_TIMES_OF_GROUPS} times where a group is made; and a chain of {CHAIN}\n"
        "`null` and `switch` nodes over the grid holds at most 1 MB more than the grid.",
        node_lines,
    )


def main():
    parser = argparse.ArgumentParser()
    parser.add_argument("--program", default=f"{page.TOP}/crates/sopcook/out/sopcook")
    parser.add_argument("--most", type=int, default=MOST)
    parser.add_argument("--runs", type=int, default=3)
    parser.add_argument("--write", action="store_true")
    args = parser.parse_args()
    if args.write and args.most != MOST:
        parser.error("docs/BENCH.md holds the whole measurement: leave out --most")
    program = os.path.abspath(args.program)
    peer = build_peer("obj_peer")
    obj_lines = page.table(["read and written", "points", "read", "proved", "plain Rust", "ratio", "memory", "plain Rust", "ratio"], "<>>>>>>>>")
    print("\n".join(obj_lines))
    problems = beside(program, peer, "points and quads", args.most, False, args.runs, obj_lines)
    problems += beside(program, peer, "with vt and vn", int(args.most * CORNERS), True, args.runs, obj_lines)
    node_lines = page.table(["cook", "points", "time", "times half of it"], "<>>>")
    print("\n".join(node_lines))
    problems += nodes(program, args.most, args.runs, node_lines)
    if args.write:
        write(obj_lines, node_lines, args.runs)
    return status_of(problems)


if __name__ == "__main__":
    sys.exit(main())
