#!/usr/bin/env python3
"""Makes every request for memory of a vault's calls fail in turn, over the crate's proved tests.

    vault.py [--tests FILE]

The test that is run makes each call of a vault that may take memory, on a geometry of its own and then on one that
shares its pages. Where a call is refused, the test looks at both geometries and at the number of pages, which must be as
before the call (after `take_loose` and `adopt` only their own geometry), and ends with the call's error. For N from 1 on it is run with its Nth request failing alone, and then
with the Nth and all later ones failing, and must end with want of memory each time, until there is no Nth. A failed look
or a crash is a failure.
FILE is the program that `rt test` makes of a crate's tests; without it, `rt test` is run in crates/sop_vault first.
A C compiler is needed. This is no part of the gate. The last line is 'N passed, M failed'.
"""
import sys

import calls

if __name__ == "__main__":
    sys.exit(calls.main("sop_vault", "tests::want_of_memory_leaves_all_as_it_was", "Memory"))
