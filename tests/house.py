"""Checks of the repository's layout: what each crate has, what is committed, and that the repository stands alone."""
import json
import os
import re
import subprocess

WIDTH = 100
CODE = (".rt", ".antt")
PROSE = (".md", ".txt", ".cmd", ".edit", ".py", ".sh", ".c", "")
COMMENT = {".rt": "//", ".antt": "--"}
# A path of one machine; a rule cited by the label or number that it has in some paper; what is left undone.
MACHINE = re.compile(r"(?:^|[\s\"'`(=])/(?:work|opt|tmp|root|home)/")
LABEL = re.compile(
    r"(?<![\w.])(?:[DUW][0-9]{1,2}|R(?:[1-9]|1[0-9]|20)|T[1-5](?:[a-i]| \([iv]+\)))(?![\w(<])"
    r"|(?i:\b0[1-4]-(?:scope|theorems|requests|formats)\b|\bissue #?[0-9]+\b)"
)
UNDONE = re.compile(r"\b(?:TO" r"DO|FIX" r"ME|XX" r"X)\b")


def committed(top):
    listed = subprocess.run(["git", "-C", top, "ls-files", "-z"], capture_output=True, check=True).stdout
    return [name for name in listed.decode("utf-8").split("\0") if name and os.path.isfile(f"{top}/{name}")]


def crates_of(top):
    with open(f"{top}/crates.txt", encoding="utf-8") as file:
        lines = [line.split("#")[0].partition(":") for line in file]
    return {name.split()[0]: libraries.split() for name, colon, libraries in lines if colon and name.split()}


def lines_of(top, names):
    """The lines of text files, each with its place. Files that hold data are left out."""
    for name in names:
        if name.endswith((".obj", ".jsonl")) or "/data/" in name:
            continue
        with open(f"{top}/{name}", encoding="utf-8", errors="replace") as file:
            for number, line in enumerate(file, 1):
                yield f"{name}:{number}", name, line.rstrip("\n")


def few(found):
    return "; ".join(found[:5]) + (f"; and {len(found) - 5} more" if len(found) > 5 else "")


def has_its_parts(top, crate):
    folder = f"{top}/crates/{crate}"
    lacking = [part for part in ("src", "must-fail") if not os.path.isdir(f"{folder}/{part}")]
    if not lacking and not [it for it in os.listdir(f"{folder}/must-fail") if it.endswith(".edit")]:
        lacking = ["an edit in must-fail"]
    return "it has no " + ", no ".join(lacking) if lacking else ""


def lists_all(top):
    folders = sorted(os.listdir(f"{top}/crates")) if os.path.isdir(f"{top}/crates") else []
    return few([f"crates.txt has no {it}" for it in folders if it not in crates_of(top)])


def commits_no_builds(top):
    made = re.compile(r"(?:^|/)(?:out|\.build|__pycache__)/|\.(?:o|so|pyc|log)$")
    return few([name for name in committed(top) if made.search(name)])


def names_no_machine(top):
    return few([place for place, _, line in lines_of(top, committed(top)) if MACHINE.search(line)])


def stands_alone(top):
    """Cited labels stand in documents and comments; code has names of its own."""
    found = []
    for place, name, line in lines_of(top, committed(top)):
        kind = os.path.splitext(name)[1]
        prose = line[line.find(COMMENT[kind]) :] if kind in CODE and COMMENT[kind] in line else ""
        if LABEL.search(line if kind in PROSE else prose):
            found.append(place)
    return few(found)


def leaves_nothing_undone(top):
    return few([place for place, _, line in lines_of(top, committed(top)) if UNDONE.search(line)])


def wraps_documents(top):
    documents = [name for name in committed(top) if name.endswith(".md")]
    return few([place for place, _, line in lines_of(top, documents) if len(line) > WIDTH])


def defines_what_it_lists(top):
    """Each bullet of docs/DEFINITIONS.md names definitions, and in brackets the files in specs/ where they stand."""
    with open(f"{top}/docs/DEFINITIONS.md", encoding="utf-8") as file:
        parts = re.split(r"^(?=## |- )", file.read(), flags=re.MULTILINE)
    crate, missing = "", []
    for part in parts:
        if part.startswith("## "):
            crate = part[3:].strip()
        if part.startswith("- "):
            names, files = re.match(r"- (.*?) \(([\w, ]+)\):", " ".join(part.split())).groups()
            text = "".join(read(f"{top}/crates/{crate}/specs/{name}.antt") for name in files.split(", "))
            words = set(re.findall(r"[\w⊎×-]+", text))
            missing += [f"{crate}: {name}" for name in re.findall(r"`([^`]+)`", names) if name not in words]
    return few(missing)


def tests_what_it_shows(top):
    """Each file and answer in the table `reference` stands in docs/REFERENCE.md, indented."""
    blocks = set(re.findall(r"(?:^    .*\n)+", read(f"{top}/docs/REFERENCE.md"), flags=re.MULTILINE))
    cases = [json.loads(line) for line in read(f"{top}/tests/cases/reference.jsonl").splitlines()]
    shows = lambda text: re.sub(r"(?m)^", "    ", text.rstrip("\n")) + "\n" in blocks
    return few([case["name"] for case in cases if not all(map(shows, [*case["files"].values(), case["out"]]))])


def read(path):
    if not os.path.exists(path):
        return ""
    with open(path, encoding="utf-8") as file:
        return file.read()


def keeps_files_short(top):
    names = [name for name in committed(top) if name.endswith(CODE)]
    counts = {name: sum(1 for _ in lines_of(top, [name])) for name in names}
    return few([f"{name} has {count} lines" for name, count in counts.items() if count > 800])


def checks(top):
    """Gives each check as its name and a function that says why it fails, or nothing."""
    for crate in crates_of(top):
        yield f"the crate {crate} has its parts", lambda crate=crate: has_its_parts(top, crate)
    for name, check in [
        ("crates.txt lists each crate", lists_all),
        ("nothing built is committed", commits_no_builds),
        ("no path of one machine stands in it", names_no_machine),
        ("no rule is cited by the label of a paper", stands_alone),
        ("nothing is left undone", leaves_nothing_undone),
        ("no file of code has more than 800 lines", keeps_files_short),
        ("no line of a document has more than 100 columns", wraps_documents),
        ("each listed definition stands in its file", defines_what_it_lists),
        ("the reference shows what the table of its examples tests", tests_what_it_shows),
    ]:
        yield name, lambda check=check: check(top)
