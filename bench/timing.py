"""What the measurements of the libraries share: the programs, their runs and their times."""
import argparse
import os
import statistics
import subprocess
import sys
import tempfile
import time
from typing import NamedTuple

import page

PROGRAM = f"{page.TOP}/crates/sop_bench/out/sop_bench"
SHORTEST = 0.005  # seconds: a ratio over a shorter time says nothing
PROCESSOR, WALL = "processor", "wall"


def arguments():
    """A parser of the words that the measurements share."""
    parser = argparse.ArgumentParser()
    parser.add_argument("program", nargs="?", default=PROGRAM)
    parser.add_argument("--runs", type=int, default=5)
    parser.add_argument("--write", action="store_true")
    return parser


def status_of(problems):
    """Prints what doesn't hold, and gives the status."""
    for it in problems:
        print(f"FAILED {it}")
    return 1 if problems else 0


def build_peer(name="peer"):
    folder = f"{page.TOP}/.build/bench"
    os.makedirs(folder, exist_ok=True)
    words = ["rustc", "--edition", "2021", "-O", "-o", f"{folder}/{name}", f"{page.TOP}/bench/{name}.rs"]
    if subprocess.run(words).returncode:
        sys.exit("the peer can't be built")
    return f"{folder}/{name}"


class Run(NamedTuple):
    """Seconds of the processor, seconds on the wall, bytes of memory at most, and what was printed."""

    processor: float
    wall: float
    memory: int
    printed: bytes


class Measured(NamedTuple):
    """The median of the seconds less those of another row, the most bytes of memory, and all that was printed."""

    seconds: float
    memory: int
    printed: set


def run(program, row, size):
    """One run of a row."""
    with tempfile.TemporaryFile() as out:
        start = time.perf_counter()
        started = subprocess.Popen([program, row, str(size)], stdin=subprocess.DEVNULL, stdout=out)
        _, status, used = os.wait4(started.pid, 0)
        wall = time.perf_counter() - start
        started.returncode = os.waitstatus_to_exitcode(status)
        if started.returncode:
            sys.exit(f"{program} {row} {size}: status {started.returncode}")
        out.seek(0)
        return Run(used.ru_utime + used.ru_stime, wall, used.ru_maxrss * 1024, out.read())


def measure(programs, row, size, runs, clock=PROCESSOR, less=("none", 0)):
    """What the runs of each program tell, whose time is less that of another row's run; the programs take turns."""
    ran = [[(run(it, row, size), run(it, *less)) for it in programs] for _ in range(runs)]
    answers = []
    for pairs in zip(*ran):
        took, empty = (statistics.median(getattr(it, clock) for it in kind) for kind in zip(*pairs))
        whole = [full for full, _ in pairs]
        answers.append(Measured(max(0.0, took - empty), max(it.memory for it in whole), {it.printed for it in whole}))
    return answers


def ratio(over, under):
    return over / under if under >= SHORTEST else None


def shown(number):
    return "" if number is None else f"{number:.2f}"


def tell(lines, *cells):
    lines.append(page.line(cells))
    print(lines[-1], flush=True)
