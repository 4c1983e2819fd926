#!/usr/bin/env python3
"""The repository's quick checks. They prove nothing: they run the built program, and look over the repository.

    checks.py PROGRAM [--only WORD]

The groups are examples (each gives its expected files: .obj, .list with --form list, .err where it echoes), cases
(tests/cases/*.jsonl), second (the second cook, in Python, gives what these two want), streams (what can't be written),
limits (sizes at their limit and past it, and networks with far too many ways upstream), launcher (the script sopcook)
and house (the layout of the repository). With --only a check runs where its group or name has WORD. The last line is
'N passed, M failed', and the status is 0 where none failed.
"""
import argparse
import glob
import json
import os
import subprocess
import sys
import tempfile

import house
import launcher
import second_cook
import sizes

TOP = os.path.dirname(os.path.dirname(os.path.realpath(__file__)))
SECONDS = 60


def cook(program, words, folder, **streams):
    """Runs the program in a folder and returns its status and what it wrote, or why there is neither."""
    streams = {"stdin": subprocess.DEVNULL, "stdout": subprocess.PIPE, "stderr": subprocess.PIPE, **streams}
    try:
        ran = subprocess.run([program, *words], cwd=folder, timeout=SECONDS, **streams)
    except subprocess.TimeoutExpired:
        return f"no answer in {SECONDS} s"
    except OSError as error:
        return f"the program doesn't run: {error.strerror}"
    return ran.returncode, ran.stdout or b"", ran.stderr or b""


def shown(answer):
    """An answer in short, for a line of a report."""
    if isinstance(answer, str):
        return answer
    status, out, err = answer
    return f"status {status}, {len(out)} bytes on out {out[:60]!r}, err {err[:80]!r}"


def compare(answer, wanted):
    """Why the answer isn't the wanted one, or nothing."""
    return "" if answer == wanted else f"got {shown(answer)}; want {shown(wanted)}"


def examples(program):
    for script in sorted(glob.glob(f"{TOP}/examples/*/*.cmd")):
        name, expected = os.path.relpath(script, TOP), f"{os.path.dirname(script)}/expected"
        for form in ("obj", "list"):
            if form == "list" and not os.path.exists(f"{expected}.list"):
                continue
            words = [name, "out", "--form", form]
            with open(f"{expected}.{form}", "rb") as file:
                wanted = 0, file.read(), read_or_nothing(f"{expected}.err")
            yield f"{name} as {form}", lambda words=words, wanted=wanted: compare(cook(program, words, TOP), wanted)
    yield "the meshes are those of make_meshes.py", meshes


def read_or_nothing(path):
    if not os.path.exists(path):
        return b""
    with open(path, "rb") as file:
        return file.read()


def meshes():
    ran = subprocess.run([sys.executable, f"{TOP}/examples/make_meshes.py", "--check"], capture_output=True, text=True)
    return "" if ran.returncode == 0 else (ran.stdout + ran.stderr).strip()


def in_folder(files, run):
    """Runs in an empty folder that holds the files, by name and bytes."""
    with tempfile.TemporaryDirectory() as folder:
        for name, text in files.items():
            os.makedirs(os.path.dirname(os.path.join(folder, name)), exist_ok=True)
            with open(os.path.join(folder, name), "wb") as file:
                file.write(text)
        return run(folder)


def cases(program):
    """Each line of a table is a case: files, words, and the wanted status, out and err. Texts are read as latin-1."""
    for table in sorted(glob.glob(f"{TOP}/tests/cases/*.jsonl")):
        with open(table, encoding="utf-8") as lines:
            for line in filter(str.strip, lines):
                case = json.loads(line)
                yield case["name"], lambda case=case: run_case(program, case)


def run_case(program, case):
    files = {name: text.encode("latin-1") for name, text in case["files"].items()}
    wanted = case["status"], case["out"].encode("latin-1"), case["err"].encode("latin-1")
    return in_folder(files, lambda folder: compare(cook(program, case["words"], folder), wanted))


def streams(program):
    """A stream that takes nothing gives status 6, unless there is nothing to write on it. Echoed text comes first."""
    quiet = b"opadd file f\nopparm f file a.obj\nopadd merge m\n"
    files = {"s": quiet, "t": quiet + b"echo made it\n", "bad": b"opfoo\n", "a.obj": b"v 0 0 0\n"}
    point = b"v 0 0 0\n"
    for name, words, ending, wanted in [
        ("a script on standard input", "/dev/stdin f", "<s", (0, point, b"")),
        ("a full standard output", "s f", ">/dev/full", (6, b"", b"")),
        ("a closed standard output", "s f", ">&-", (6, b"", b"")),
        ("a full standard output behind echoed text", "t f", ">/dev/full", (6, b"", b"made it\n")),
        ("nothing to write on a full output", "s m", ">/dev/full", (0, b"", b"")),
        ("nothing to write on a full output, behind echoed text", "t m", ">/dev/full", (0, b"", b"made it\n")),
        ("a listing on a full output, where OBJ has nothing to write", "s m --form list", ">/dev/full", (6, b"", b"")),
        ("a full standard error, where there is no such node", "s x", "2>/dev/full", (6, b"", b"")),
        ("a closed standard error, where there is no such node", "s x", "2>&-", (6, b"", b"")),
        ("a full standard error, where the words are refused", "s", "2>/dev/full", (6, b"", b"")),
        ("a full standard error, where a line is refused", "bad f", "2>/dev/full", (6, b"", b"")),
        ("a full standard error, where a file can't be read", "/ f", "2>/dev/full", (6, b"", b"")),
        ("a full standard error under echoed text, with a geometry", "t f", "2>/dev/full", (6, b"", b"")),
        ("a closed standard error under echoed text, with no geometry", "t m", "2>&-", (6, b"", b"")),
        ("a full standard error that isn't needed", "s f", "2>/dev/full", (0, point, b"")),
    ]:
        words = ["-c", f'"$0" {words} {ending}', program]
        yield name, lambda words=words, wanted=wanted: in_folder(
            files, lambda folder: compare(cook("/bin/sh", words, folder), wanted)
        )


def limits(program):
    for name, files, node, wanted in sizes.checks():
        yield name, lambda files=files, node=node, wanted=wanted: in_folder(
            files, lambda folder: compare(cook(program, ["s", node], folder), wanted)
        )
    for name, size, wanted in [
        ("a file of 64 MiB, in one word, which is skipped", 67_108_864, (0, b"", b"")),
        ("a file of 64 MiB and a byte", 67_108_865, (4, b"", b"sopcook: f: Limit\n")),
    ]:
        yield name, lambda size=size, wanted=wanted: in_folder(
            {"s": b"opadd file f\nopparm f file a.obj\n"}, lambda folder: cook_hole(program, folder, size, wanted)
        )


def cook_hole(program, folder, size, wanted):
    """Cooks a file of so many zero bytes, which take no room on the disk."""
    with open(f"{folder}/a.obj", "wb") as file:
        file.truncate(size)
    return compare(cook(program, ["s", "f"], folder), wanted)


def outcome(check):
    """Why a check fails, or nothing. One that can't be made fails too."""
    try:
        return check()
    except (OSError, ValueError, subprocess.SubprocessError) as error:
        return f"{type(error).__name__}: {error}"


def main():
    parser = argparse.ArgumentParser()
    parser.add_argument("program")
    parser.add_argument("--only", default="")
    args = parser.parse_args()
    program = os.path.abspath(args.program)
    groups = {
        "examples": examples(program),
        "cases": cases(program),
        "second": second_cook.checks(TOP),
        "streams": streams(program),
        "limits": limits(program),
        "launcher": launcher.checks(TOP),
        "house": house.checks(TOP),
    }
    passed = failed = 0
    for group, checks in groups.items():
        for name, check in checks:
            if args.only not in f"{group}: {name}":
                continue
            problem = outcome(check)
            passed, failed = passed + (not problem), failed + bool(problem)
            if problem:
                print(f"FAILED {group}: {name}: {problem}", flush=True)
    print(f"{passed} passed, {failed} failed")
    return 1 if failed else 0


if __name__ == "__main__":
    sys.exit(main())
