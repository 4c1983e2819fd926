#!/usr/bin/env python3
"""Measures how the cost of the libraries grows with what they are given, from outside.

    growth.py [PROGRAM] [--runs N] [--write]

PROGRAM is the built crate sop_bench; it has no peer here, since a time is compared with the same row's at half the size.
A time is the median of the runs in seconds of the processor, less that of an empty run, or of one that only makes what
the row begins with. It checks that twice the size takes at most 2.3 times as long, and 2.5 times for near points, whose
cells are sorted; and that a pattern that selects few points takes less time than one that selects half of them. The
status is 0 where all of that holds. --write puts the table into docs/BENCH.md with the date.
"""
import os
import sys

import page
from timing import arguments, measure, ratio, shown, status_of, tell

MOST_TIMES = 2.3
MOST_TIMES_NEAR = 2.5
KINDS = ("quotes", "slashes", "digits", "pluses", "letters", "spaces")
DOUBLED = [(f"tokens-{kind}", 65_536, MOST_TIMES) for kind in KINDS] + [
    ("wildcard-name", 65_536, MOST_TIMES),
    ("wildcard-pattern", 1024, MOST_TIMES),
    ("wildcard-stars", 1024, MOST_TIMES),
    ("near", 20_000, MOST_TIMES_NEAR),
    ("near", 100_000, MOST_TIMES_NEAR),
    ("vault-quads", 1_000_000, MOST_TIMES),
    ("vault-keep", 1_000_000, MOST_TIMES),
    ("vault-reorder", 1_000_000, MOST_TIMES),
]
POINTS = 1_000_000
SELECTIONS = ("select-thousandth", "select-second", "select-all")
BEGINS_WITH = {"near": "points", **dict.fromkeys(SELECTIONS, "points"), "vault-keep": "vault-grid", "vault-reorder": "vault-grid"}


def time_of(program, row, size, runs):
    """Seconds of a row, less those of the row that makes what it begins with."""
    less = (BEGINS_WITH[row], size) if row in BEGINS_WITH else ("none", 0)
    [it] = measure([program], row, size, runs, less=less)
    return it.seconds


def doubled(program, runs, lines):
    """Two lines for each row, half its size and its size, and what doesn't hold."""
    problems = []
    for row, size, most in DOUBLED:
        before = time_of(program, row, size // 2, runs)
        tell(lines, row, f"{size // 2:,}", f"{before:.3f} s", "")
        took = time_of(program, row, size, runs)
        times = ratio(took, before)
        tell(lines, row, f"{size:,}", f"{took:.3f} s", shown(times))
        if times is not None and times > most:
            problems.append(f"{row}, {size:,}: {times:.2f} times as long as half of it")
    return problems


def selections(program, runs, lines):
    """A line for each pattern, and what doesn't hold."""
    took = [time_of(program, row, POINTS, runs) for row in SELECTIONS]
    for row, seconds in zip(SELECTIONS, took):
        tell(lines, row, f"{POINTS:,}", f"{seconds:.3f} s", "")
    few, half, _ = took
    return [] if few < half else [f"{SELECTIONS[0]} takes as long as {SELECTIONS[1]}"]


def write(lines, runs):
    """Puts the table into docs/BENCH.md."""
    page.put(
        "How the libraries' cost grows",
        "`bench/growth.py --write` makes this table from the program `sop_bench`. Times are seconds of the processor, the median\n"
        f"of {runs} runs, less that of an empty run, or of one that only makes what the row begins with. `tokens-..` cuts a text of so many\n"
        "bytes of one kind, 50 to 2,000 times. `wildcard-name` matches `*aa..ab` of 512 bytes with a name of so many letters `a`\n"
        "and another behind them, and `wildcard-pattern` such a pattern of so many bytes with such a name of 65,536, 4 times each:\n"
        "the letters match at each byte of the name, so the work is near the product of both lengths. `wildcard-stars` matches\n"
        "`*a*a..*b` of so many bytes with a name of as many, 100,000 times. `near` finds the points near each of so many;\n"
        "`select-..` selects of so many points, 500 times, by `0-999999:1000`, by `0-999999:2` and by `*`. `vault-..` are the\n"
        "rows of the part on geometries in a vault. The bounds that it checks: twice the size takes at most 2.3 times as long,\n"
        "and 2.5 times for `near`; and each thousandth point takes less time to select than each second one.",
        lines,
    )


def main():
    args = arguments().parse_args()
    program = os.path.abspath(args.program)
    lines = page.table(["row", "size", "time", "times half of it"], "<>>>")
    print("\n".join(lines))
    problems = doubled(program, args.runs, lines) + selections(program, args.runs, lines)
    if args.write:
        write(lines, args.runs)
    return status_of(problems)


if __name__ == "__main__":
    sys.exit(main())
