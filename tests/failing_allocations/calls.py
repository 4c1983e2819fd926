#!/usr/bin/env python3
"""Makes every request for memory of the page store's calls fail in turn, over the crate's proved tests.

    calls.py [--tests FILE]

The test that is run makes each call of the store. For N from 1 on it is run with its Nth request failing alone, and
then with the Nth and all later ones failing, and must end with the store's error for want of memory each time, until
there is no Nth. A failed look or a crash is a failure. What a failed call leaves is proved by its clauses.
FILE is the program that `rt test` makes of a crate's tests; without it, `rt test` is run in crates/sop_pages first.
A C compiler is needed. This is no part of the gate. The last line is 'N passed, M failed'.
"""
import argparse
import os
import subprocess
import sys
import tempfile

import run

WELL = 0, b"\ntest result: ok\n", b""
MOST = 1000


def wanting(error):
    """How a test ends whose result is this error."""
    return 101, b"", f"error: {error}\nthe test failed: its result gives status 1\n".encode("ascii")


def is_wanted(answer, wanted, what):
    if tuple(answer) != wanted:
        print(f"{what}: {answer}; want {wanted}")
    return tuple(answer) == wanted


def fail_in_turn(words, shim, ending, wanted):
    """Whether the run ended as wanted, for each request in turn."""
    ended = []
    for number in range(1, MOST + 1):
        *answer, failed = run.cook(words, shim, f"{number}{ending}")
        if not failed:
            return ended
        ended.append(is_wanted(answer, wanted, f"request {number}{ending}"))
    print(f"more than {MOST} requests: the rest was not tried")
    return [*ended, False]


def main(crate, test, error):
    """Runs a test of a crate, which must end with this error where a request fails, and gives the status."""
    parser = argparse.ArgumentParser()
    parser.add_argument("--tests")
    tests = parser.parse_args().tests
    if not tests:
        folder = f"{run.TOP}/crates/{crate}"
        tests = f"{folder}/out/{crate}_tests"
        subprocess.run(["rt", "test"], cwd=folder, check=True, stdout=subprocess.DEVNULL)
    words = [os.path.abspath(tests), test]
    with tempfile.TemporaryDirectory() as folder:
        shim = run.make_shim(folder)
        *answer, _ = run.cook(words, shim, "0")
        alone = fail_in_turn(words, shim, "", wanting(error))
        on = fail_in_turn(words, shim, "+", wanting(error))
    print(f"{len(alone)} requests failed alone, and {len(on)} with all later ones")
    ended = [is_wanted(answer, WELL, "no request"), *alone, *on]
    if not alone or len(alone) != len(on):
        print("each request must fail once alone and once with all later ones, and there must be one")
        ended.append(False)
    wrong = ended.count(False)
    print(f"{ended.count(True)} passed, {wrong} failed")
    return 1 if wrong else 0


if __name__ == "__main__":
    sys.exit(main("sop_pages", "tests::a_shared_page_is_copied_once", "AllocError"))
