#!/usr/bin/env python3
"""Measures how the cost of a cook grows with its input: closed grids of N points and N quads, and long command files.

    run.py [--program FILE] [--most N] [--runs N] [--write]

It measures reading and writing one grid, N up to 1,000,000, and merging two, N up to 500,000 each: a quarter, a half
and the whole of that; and command files of up to 1,000 nodes and of up to 4 MiB: a half and the whole. A time is the
median of the runs in seconds of the processor, less that of an empty cook; memory is the greatest that a run held. It
checks the answers byte for byte, that twice the input takes at most 2.3 times as long, and that no cook takes more than
3 GB. The status is 0 where all of that holds. --most N makes a smaller and quicker measurement of the grids.
--write puts the tables of the whole one into docs/BENCH.md with the date.
"""
import argparse
import filecmp
import math
import multiprocessing
import os
import statistics
import subprocess
import sys
import tempfile

import page
from commands import COMMAND_FILES, write_chain

MOST = 1_000_000
MOST_TIMES = 2.3
MOST_BYTES = 3_000_000_000
SHORTEST = 0.05  # seconds: a ratio over a shorter time says nothing
SHORTEST_COMMANDS = 0.002  # a command file is read quickly, so it is read in more runs
COMMAND_RUNS = 25  # so many times as many


def rows_of(count):
    """The greatest number of rows, at most the square root, that divides a grid of `count` points evenly."""
    return next(rows for rows in range(math.isqrt(count), 0, -1) if count % rows == 0)


def short(number):
    """The shortest decimal of a number rounded to millionths."""
    whole, rest = divmod(abs(round(number * 1e6)), 1_000_000)
    fraction = f"{rest:06d}".rstrip("0")
    sign = "-" if number < 0 and (whole or rest) else ""
    return sign + str(whole) + ("." + fraction if fraction else "")


def write_points(file, count):
    """A torus: each row and each column of the grid is a ring. The numbers are in their shortest form."""
    rows = rows_of(count)
    columns = count // rows
    turn = lambda at, of: 2 * math.pi * at / of
    rings = [(math.cos(turn(row, rows)), math.sin(turn(row, rows))) for row in range(rows)]
    spokes = [(math.cos(turn(column, columns)), math.sin(turn(column, columns))) for column in range(columns)]
    for out, up in rings:
        for x, z in spokes:
            file.write(f"v {short((2 + out) * x)} {short(up)} {short((2 + out) * z)}\n")


def write_faces(file, count, before):
    """A quad for each point, whose numbers come after the `before` points of the inputs before."""
    rows = rows_of(count)
    columns = count // rows
    for row in range(rows):
        here, there = before + row * columns + 1, before + (row + 1) % rows * columns + 1
        for column in range(columns):
            beside = (column + 1) % columns
            file.write(f"f {here + column} {here + beside} {there + beside} {there + column}\n")


def make(folder, count, inputs):
    """Writes a file for each input, the command file and the wanted answer."""
    for number in range(inputs):
        with open(f"{folder}/grid{number}.obj", "w", encoding="ascii") as file:
            write_points(file, count)
            write_faces(file, count, 0)
    with open(f"{folder}/want.obj", "w", encoding="ascii") as file:
        for _ in range(inputs):
            write_points(file, count)
        for number in range(inputs):
            write_faces(file, count, number * count)
    names = [f"grid{number}" for number in range(inputs)]
    lines = [f"opadd file {name}\nopparm {name} file {name}.obj\n" for name in names]
    if inputs > 1:
        lines += ["opadd merge out\n", *[f"opwire out {at} {name}\n" for at, name in enumerate(names)]]
    with open(f"{folder}/cook.cmd", "w", encoding="ascii") as file:
        file.writelines(lines)


def made_apart(folder, count, inputs):
    """Makes the files in another process: what this one holds would count as memory of the programs that it starts."""
    worker = multiprocessing.get_context("fork").Process(target=make, args=(folder, count, inputs))
    worker.start()
    worker.join()
    if worker.exitcode:
        sys.exit("the files can't be made")
    return "out" if inputs > 1 else "grid0"


def timed(words, folder):
    """Processor seconds, bytes of memory at most, and the status of one run in the folder, whose answer goes to got.obj."""
    with open(f"{folder}/got.obj", "wb") as out:
        started = subprocess.Popen(words, cwd=folder, stdin=subprocess.DEVNULL, stdout=out)
        _, status, used = os.wait4(started.pid, 0)
    started.returncode = os.waitstatus_to_exitcode(status)
    return used.ru_utime + used.ru_stime, used.ru_maxrss * 1024, started.returncode


def cook(program, folder, node, *more):
    """The same of one cook."""
    return timed([program, "cook.cmd", node, *more], folder)


def measure(program, count, inputs, runs):
    """The median time less that of an empty cook, memory, bytes read, and what is wrong with the answer."""
    with tempfile.TemporaryDirectory() as folder:
        with open(f"{folder}/cook.cmd", "w", encoding="ascii") as file:
            file.write("opadd merge out\n")
        empty = statistics.median([cook(program, folder, "out")[0] for _ in range(runs)])
        node = made_apart(folder, count, inputs)
        ran = [cook(program, folder, node) for _ in range(runs)]
        wrong = "" if filecmp.cmp(f"{folder}/got.obj", f"{folder}/want.obj", shallow=False) else "another answer"
        statuses = {status for _, _, status in ran} - {0}
        size = os.path.getsize(f"{folder}/grid0.obj") * inputs
    wrong = f"status {min(statuses)}" if statuses else wrong
    return statistics.median([took for took, _, _ in ran]) - empty, max(most for _, most, _ in ran), size, wrong


def series(program, name, most, inputs, runs):
    """A line of the table for a quarter, a half and the whole, and what doesn't hold."""
    lines, problems, before = [], [], None
    for count in (most // 4, most // 2, most):
        took, memory, size, wrong = measure(program, count, inputs, runs)
        times = took / before if before and before >= SHORTEST else None
        if wrong:
            problems.append(f"{name}, {count:,}: {wrong}")
        if times and times > MOST_TIMES:
            problems.append(f"{name}, {count:,}: {times:.2f} times as long as half of it")
        if memory > MOST_BYTES:
            problems.append(f"{name}, {count:,}: {memory / 1e9:.2f} GB")
        cells = [name, f"{count:,}", f"{size / 1e6:.1f} MB", f"{took:.2f} s", f"{times:.2f}" if times else "", f"{memory / 1e6:,.0f} MB"]
        lines.append(page.line(cells))
        print(lines[-1], flush=True)
        before = took
    return lines, problems


def read_commands(program, make, sizes, runs):
    """For each size the median time less that of an empty cook, bytes read, and the statuses other than 0. The runs take turns."""
    with tempfile.TemporaryDirectory() as top:
        folders = [f"{top}/{size}" for size in (0, *sizes)]
        for folder in folders:
            os.mkdir(folder)
        write_chain(folders[0], 1)
        for folder, size in zip(folders[1:], sizes):
            make(folder, size)
        ran = [[cook(program, folder, "out") for folder in folders] for _ in range(runs)]
        lengths = [os.path.getsize(f"{folder}/cook.cmd") for folder in folders[1:]]
    empty, *times = (statistics.median(took for took, _, _ in kind) for kind in zip(*ran))
    _, *statuses = ({status for _, _, status in kind} - {0} for kind in zip(*ran))
    return zip(sizes, [took - empty for took in times], lengths, statuses)


def command_series(program, name, make, size, runs):
    """A line of the table for a half and the whole of a command file, and what doesn't hold."""
    lines, problems, before = [], [], None
    for part, took, length, statuses in read_commands(program, make, (size // 2, size), runs * COMMAND_RUNS):
        times = took / before if before and before >= SHORTEST_COMMANDS else None
        if statuses:
            problems.append(f"{name}, {part:,}: status {min(statuses)}")
        if times and times > MOST_TIMES:
            problems.append(f"{name}, {part:,}: {times:.2f} times as long as half of it")
        cells = [name, f"{part:,}", f"{length / 1e6:.2f} MB", f"{took:.4f} s", f"{times:.2f}" if times else ""]
        lines.append(page.line(cells))
        print(lines[-1], flush=True)
        before = took
    return lines, problems


def write_commands(lines, runs):
    """Puts the table of the command files into docs/BENCH.md."""
    page.put(
        "How command files cost",
        "`bench/run.py --write` makes this table. A file of nodes has so many merges in a row, each with one input or 32 wired to\n"
        "the one before; a file of comments and sets has so many bytes. Times are seconds of the processor, the median of\n"
        f"{runs * COMMAND_RUNS} runs that take turns, less that of an empty cook. The bound that it checks: twice the input takes at most 2.3 times\n"
        "as long.",
        lines,
    )


def write(lines, runs):
    """Puts the table of the grids into docs/BENCH.md."""
    page.put(
        "How cost grows",
        "`bench/run.py --write` makes this table. A grid of N points has N quads and is closed: each row and each column is a\n"
        f"ring. Times are seconds of the processor, the median of {runs} runs, less that of an empty cook; memory is the\n"
        "greatest that a run held. The bounds that it checks: twice the input takes at most 2.3 times as long, and no cook\n"
        "takes more than 3 GB.",
        lines,
    )


def main():
    parser = argparse.ArgumentParser()
    parser.add_argument("--program", default=f"{page.TOP}/crates/sopcook/out/sopcook")
    parser.add_argument("--most", type=int, default=MOST)
    parser.add_argument("--runs", type=int, default=3)
    parser.add_argument("--write", action="store_true")
    args = parser.parse_args()
    if args.write and args.most != MOST:
        parser.error("docs/BENCH.md holds the whole measurement: leave out --most")
    program = os.path.abspath(args.program)
    lines = page.table(["cook", "points of a grid", "read", "time", "times half of it", "memory"], "<>>>>>")
    print("\n".join(lines))
    alone = series(program, "read and write one", args.most, 1, args.runs)
    both = series(program, "merge two", args.most // 2, 2, args.runs)
    lines += alone[0] + both[0]
    command_lines = page.table(["command file", "size", "read", "time", "times half of it"], "<>>>>")
    print("\n".join(command_lines))
    problems = alone[1] + both[1]
    for name, make, size in COMMAND_FILES:
        more = command_series(program, name, make, size, args.runs)
        command_lines += more[0]
        problems += more[1]
    for it in problems:
        print(f"FAILED {it}")
    if args.write:
        write(lines, args.runs)
        write_commands(command_lines, args.runs)
    return 1 if problems else 0


if __name__ == "__main__":
    sys.exit(main())
