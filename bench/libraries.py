#!/usr/bin/env python3
"""Measures the proved libraries beside plain Rust, from outside.

    libraries.py [PROGRAM] [--size N] [--runs N] [--write]

PROGRAM is the built crate sop_bench. Its peer, bench/peer.rs, is built with rustc -O into .build/bench/. Both run each
row and must print the same checksum. A time is the median of the runs, less that of an empty run: of the processor for
operations on numbers, for pages, for near points and for geometries in a vault, and on the wall for a thousand equal jobs
by 1, 2 and 4 workers. Where there are 4 processors, 4 workers must be at least 3 times as fast as one, which needs a
machine with nothing else to do; rows for more workers than processors are not measured. The plain scan of 100,000 points
is run once.
In a vault a merge of two grids may take 2.5 times the peer's time and memory, and points with a set of each one's place 5
times the time that a Vec takes; a share, with the drop of the copy, must take less than 2 ms; and the first set of each
point's place in a shared grid must add as many pages as hold the places.
The status is 0 where all of that holds. --size N measures N operations, and makes the other rows smaller as much. --write
puts the tables of the whole measurement into docs/BENCH.md with the date.
"""
import os
import sys
from typing import NamedTuple, Optional

import page
from timing import WALL, arguments, build_peer, measure, ratio, run, shown, status_of, tell

OPERATIONS = ("mul", "div", "rem", "sqrt", "length")
SIZE = 10_000_000
PAGES = (("pages-set", 1_000_000), ("pages-copy", 100_000))
NEAR = (10_000, 20_000, 100_000)
LONG_SCAN = 100_000  # points: the plain scan of so many takes half a minute, so it is run once
WORKERS = (1, 2, 4)
LEAST_SPEEDUP = 3


class VaultRow(NamedTuple):
    """A row, the row that makes what it begins with, and the most times the peer's seconds and memory that it may take."""

    name: str
    size: int
    begins_with: str
    most_times: Optional[float] = None
    most_memory: Optional[float] = None


VAULT = (
    VaultRow("vault-quads", 1_000_000, "none"),
    VaultRow("vault-append", 250_000, "vault-grids", 2.5, 2.5),
    VaultRow("vault-set", 1_000_000, "none", 5),
    VaultRow("vault-set-again", 1_000_000, "vault-points"),
    VaultRow("vault-set-shared", 1_000_000, "vault-grid"),
    VaultRow("vault-keep", 1_000_000, "vault-grid"),
    VaultRow("vault-reorder", 1_000_000, "vault-grid"),
)
SHARED = 1_000_000
SHARES = 1000  # how often `vault-share` shares and drops
MOST_SECONDS_A_SHARE = 0.002
PAGE = 1024  # the cells of a page


def beside(programs, row, size, runs, lines, less=("none", 0), former=None):
    """A line of the table: seconds of the proved program, and what doesn't hold. `former` is a row and its seconds."""
    ours, peers = measure(programs, row, size, runs, less=less)
    faster = shown(ratio(ours.seconds, former[1])) if former else ""
    faster = f"{faster} times as long as {former[0]}" if faster else ""
    times = shown(ratio(ours.seconds, peers.seconds))
    tell(lines, row, f"{size:,}", f"{ours.seconds:.3f} s", f"{peers.seconds:.3f} s", times, faster)
    return ours.seconds, unlike(row, size, ours, peers)


def unlike(row, size, ours, peers):
    """What doesn't hold of the checksums."""
    return [f"{row}, {size:,}: the checksums differ"] if len(ours.printed | peers.printed) != 1 else []


def operations(programs, sizes, runs, lines):
    """A line for each operation and for each kind of page, and what doesn't hold."""
    rows = [(row, sizes(SIZE)) for row in OPERATIONS] + [(row, sizes(size)) for row, size in PAGES]
    return [it for row, size in rows for it in beside(programs, row, size, runs, lines)[1]]


def neighbors(programs, sizes, runs, lines):
    """A line for each search of near points, less the time to make the points, and what doesn't hold."""
    problems = []
    for size in map(sizes, NEAR):
        points = ("points", size)
        scans = 1 if size >= LONG_SCAN else runs
        took, wrong = beside(programs, "near", size, runs, lines, points)
        _, wrong_scan = beside(programs, "near-scan", size, scans, lines, points, ("near", took))
        problems += wrong + wrong_scan
    return problems


def workers(programs, runs, lines):
    """A line for each number of workers, and what doesn't hold."""
    problems, sums, alone = [], set(), None
    for count in WORKERS:
        size = "1 worker" if count == 1 else f"{count} workers"
        if count > len(os.sched_getaffinity(0)):
            tell(lines, "gather", size, "not measured", "not measured", "", "too few processors")
            continue
        ours, peers = measure(programs, "gather", count, runs, WALL)
        sums |= ours.printed | peers.printed
        alone = alone or ours.seconds
        speedup = ratio(alone, ours.seconds)
        if count == max(WORKERS) and speedup is not None and speedup < LEAST_SPEEDUP:
            problems.append(f"gather: {count} workers are {speedup:.2f} times as fast as one")
        faster = f"{speedup:.2f} times as fast as 1 worker" if speedup is not None else ""
        times = shown(ratio(ours.seconds, peers.seconds))
        tell(lines, "gather", size, f"{ours.seconds:.3f} s", f"{peers.seconds:.3f} s", times, faster)
    return problems + (["gather: the sums differ"] if len(sums) != 1 else [])


def in_vault(programs, sizes, runs, lines):
    """A line for each row of geometries in a vault, and what doesn't hold."""
    problems = []
    for row in VAULT:
        size = sizes(row.size)
        ours, peers = measure(programs, row.name, size, runs, less=(row.begins_with, size))
        times, memory = ratio(ours.seconds, peers.seconds), ours.memory / peers.memory
        tell_vault(lines, row.name, size, ours, peers, shown(times), shown(memory))
        problems += unlike(row.name, size, ours, peers)
        if row.most_times and times and times > row.most_times:
            problems.append(f"{row.name}, {size:,}: {times:.2f} times as long as plain Rust")
        if row.most_memory and memory > row.most_memory:
            problems.append(f"{row.name}, {size:,}: {memory:.2f} times the memory of plain Rust")
    return problems + shares(programs, sizes(SHARED), runs, lines) + pages_of(programs, sizes(SHARED))


def shares(programs, size, runs, lines):
    """A line for a geometry that is shared and dropped again and again, and what doesn't hold."""
    ours, peers = measure(programs, "vault-share", size, runs, less=("vault-grid", size))
    tell_vault(lines, "vault-share", size, ours, peers, "", shown(ours.memory / peers.memory))
    slow = ours.seconds / SHARES >= MOST_SECONDS_A_SHARE
    problems = [f"vault-share, {size:,}: {ours.seconds / SHARES * 1000:.2f} ms a share"] if slow else []
    return problems + unlike("vault-share", size, ours, peers)


def tell_vault(lines, row, size, ours, peers, times, memory):
    seconds = [f"{it.seconds:.3f} s" for it in (ours, peers)]
    most = [f"{it.memory / 1e6:,.0f} MB" for it in (ours, peers)]
    tell(lines, row, f"{size:,}", *seconds, times, *most, memory)


def pages_of(programs, size):
    """Whether the first sets in a shared geometry add the pages of the places and no others."""
    added = int(run(programs[0], "vault-set-pages", size).printed)
    return [f"vault-set-pages, {size:,}: {added:,} pages were added"] if added != -(-size // PAGE) else []


def write_vault(lines, runs):
    """Puts the table of geometries in a vault into docs/BENCH.md."""
    page.put(
        "Geometries in a vault beside flat arrays",
        "`bench/libraries.py --write` makes this table too. The peer keeps a geometry as vectors of places, of corners and of\n"
        f"sizes. Times are seconds of the processor, the median of {runs} runs, less that of a run that only makes what the row\n"
        "begins with; memory is the most that a whole run held. A grid of N points has N quads. `vault-quads` adds the points\n"
        "at once and the quads one by one. `vault-append` merges two grids of so many points into a third one, 21 times.\n"
        "`vault-set` makes points and sets each one's place, and `vault-set-again` sets each one's place 20 times.\n"
        "`vault-set-shared` shares a grid and sets each point's place in the copy, where the peer's `Rc` copies the whole\n"
        "grid. `vault-keep` takes every second point away, and `vault-reorder` puts the points in a random order.\n"
        "`vault-share` shares a grid and drops the copy, 1,000 times, beside an `Rc`. The\n"
        "bounds that it checks: `vault-append` takes at most 2.5 times the peer's time and memory, `vault-set` at most 5 times\n"
        "its time, a share less than 2 ms, and `vault-set-shared` adds as many pages as hold the places, of 1,024 each.",
        lines,
    )


def write(lines, runs):
    """Puts the table into docs/BENCH.md."""
    page.put(
        "The libraries beside plain Rust",
        "`bench/libraries.py --write` makes this table from the program `sop_bench` and its peer `bench/peer.rs`, which print\n"
        f"the same checksums. Times are the median of {runs} runs, less that of an empty run: seconds of the processor for the\n"
        "operations on numbers, for pages and for near points, seconds on the wall for `gather`, a thousand equal jobs.\n"
        "`pages-set` sets each of so many cells 20 times, beside a `Vec` of the same cells; `pages-copy` is so many first writes\n"
        "into a shared page of 1,024 cells, beside `Rc::make_mut`. `near` finds the points within 0.2 of each of so many random\n"
        "points, beside a `HashMap` of cells, and `near-scan` does so by a look at all points for each, once for 100,000; the\n"
        "time to make the points is taken off. The bound that it checks: on 4 processors 4 workers are at least 3 times as fast\n"
        "as one.",
        lines,
    )


def main():
    parser = arguments()
    parser.add_argument("--size", type=int, default=SIZE)
    args = parser.parse_args()
    if args.write and args.size != SIZE:
        parser.error("docs/BENCH.md holds the whole measurement: leave out --size")
    programs = (os.path.abspath(args.program), build_peer())
    sizes = lambda size: max(1, size * args.size // SIZE)
    lines = page.table(["row", "size", "proved", "plain Rust", "ratio", "beside another row"], "<>>>>>")
    print("\n".join(lines))
    problems = operations(programs, sizes, args.runs, lines)
    problems += neighbors(programs, sizes, args.runs, lines) + workers(programs, args.runs, lines)
    vault_lines = page.table(["row", "size", "proved", "plain Rust", "ratio", "memory", "plain Rust", "ratio"], "<>>>>>>>")
    print("\n".join(vault_lines))
    problems += in_vault(programs, sizes, args.runs, vault_lines)
    if args.write:
        write(lines, args.runs)
        write_vault(vault_lines, args.runs)
    return status_of(problems)


if __name__ == "__main__":
    sys.exit(main())
