#!/usr/bin/env python3
"""Makes every request for memory of a cook fail in turn, over the built program.

    run.py [--program FILE] [--most N] [SCRIPT NODE]

For N from 1 on the program is run with its Nth request failing, and once more with the Nth and all later ones failing,
until there is no Nth. Each run must end with the cook's own status and bytes, or with status 7 and on each stream a
prefix of the cook's own bytes. Where no SCRIPT NODE are given, they are those of the example roofs, whose command file
sets variables, echoes, and has a switch and a merge. The program is crates/sopcook/out/sopcook. A C compiler is needed.
This is no part of the gate. The last line is 'N passed, M failed'.
"""
import argparse
import os
import subprocess
import sys
import tempfile

HERE = os.path.dirname(os.path.realpath(__file__))
TOP = os.path.dirname(os.path.dirname(HERE))
WANT_OF_MEMORY = 7


def make_shim(folder):
    """The library that makes requests fail, built into a folder."""
    shim = f"{folder}/fail_nth.so"
    subprocess.run(["cc", "-shared", "-fPIC", "-O2", "-Wall", "-o", shim, f"{HERE}/fail_nth.c"], check=True)
    return shim


def cook(words, shim, fails):
    """Status, the bytes of both streams, and how many requests failed."""
    reads, writes = os.pipe()
    variables = {**os.environ, "LD_PRELOAD": shim, "FAILS": fails, "FAILS_TOLD": str(writes)}
    how = {"env": variables, "pass_fds": [writes], "cwd": TOP, "stdin": subprocess.DEVNULL, "timeout": 20}
    try:
        ran = subprocess.run(words, capture_output=True, **how)
    except subprocess.TimeoutExpired:
        return "none within 20 s", b"", b"", 1
    finally:
        os.close(writes)
        with open(reads, "rb") as told:
            failed = len(told.read())
    return ran.returncode, ran.stdout, ran.stderr, failed


def problem(own, answer):
    """Why the answer is neither the cook's own nor want of memory with a prefix, or nothing."""
    if answer == own:
        return ""
    status, out, err = answer
    if status != WANT_OF_MEMORY:
        return f"status {status}, err {err[-120:]!r}"
    if not own[1].startswith(out) or not own[2].startswith(err):
        return f"status {status} with what is no prefix: out {out[-60:]!r}, err {err[-60:]!r}"
    return ""


def fail_in_turn(words, shim, most, ending):
    """Counts the answers: own, want of memory and wrong ones."""
    *own, _ = cook(words, shim, "0")
    kept = wants = wrong = 0
    for number in range(1, most + 1):
        *answer, failed = cook(words, shim, f"{number}{ending}")
        if not failed:
            return kept, wants, wrong
        why = problem(own, answer)
        if why:
            print(f"request {number}{ending}: {why}")
        wrong += bool(why)
        kept += not why and answer == own
        wants += not why and answer != own
    print(f"more than {most} requests: the rest was not tried")
    return kept, wants, wrong + 1


def main():
    parser = argparse.ArgumentParser()
    parser.add_argument("--program", default=f"{TOP}/crates/sopcook/out/sopcook")
    parser.add_argument("--most", type=int, default=5000)
    parser.add_argument("words", nargs="*", default=["examples/roofs/roofs.cmd", "out"])
    args = parser.parse_args()
    passed = wrong = 0
    with tempfile.TemporaryDirectory() as folder:
        shim = make_shim(folder)
        for ending, what in (("", "one request fails"), ("+", "all from one on fail")):
            kept, wants, bad = fail_in_turn([os.path.abspath(args.program), *args.words], shim, args.most, ending)
            print(f"{what}: {kept} times the cook's own answer, {wants} times status {WANT_OF_MEMORY}, {bad} wrong")
            passed, wrong = passed + kept + wants, wrong + bad
    if not passed + wrong:
        print("no request was seen: is the program linked to the C library when it starts?")
        wrong = 1
    print(f"{passed} passed, {wrong} failed")
    return 1 if wrong else 0


if __name__ == "__main__":
    sys.exit(main())
