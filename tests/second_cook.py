#!/usr/bin/env python3
"""A second cook: what the reference says a node gives, in plain Python, without a look at the program.

    second_cook.py SCRIPT NODE [--form FORM]
    second_cook.py --fill TABLE

The first cooks as sopcook does, for command files that aren't refused and files that can be read. The second writes the
status, output and errors that it finds into each row of a table of cases that has a name, files and words. The quick
checks compare it with the rows of all tables that end with 0 or 4, and with the examples.
"""
import argparse
import glob
import json
import os
import sys

from second import geometry, nodes, obj
from second.patterns import BadWord, MissingGroup, selected
from second.script import Script

FORMS = {"obj": obj.text_of, "list": geometry.listing}


class Cook:
    def __init__(self, network, files):
        self.nodes, self.files, self.kept = network, files, {}

    def cooked(self, name):
        """The geometry of a node, or a fault with its node."""
        if name not in self.kept:
            self.kept[name] = self.made(name)
        return self.kept[name]

    def made(self, name):
        node = self.nodes[name]
        if node.kind not in nodes.MAKERS:
            raise nodes.Fault(f"{name}: NotYet")
        if node.kind == "switch":
            numbers = [int(node.parms.get("input", "0"))]
        else:
            numbers = range(nodes.INPUTS.get(node.kind, 0))
        inputs = []
        for number in numbers:
            if number in node.wires:
                inputs.append(self.cooked(node.wires[number]))
            elif node.kind in nodes.OPTIONAL:
                inputs.append(None)
            else:
                raise nodes.Fault(f"{name}: NoInput {number}")
        try:
            return nodes.made(node.kind, node.parms, inputs, self.files)
        except nodes.Fault as fault:
            raise nodes.Fault(f"{name}: {fault}") from None


def answer(script, node, files, form="obj"):
    """The status, and what stands on both streams, of texts that are read as latin-1."""
    script = Script(script)
    try:
        geo = Cook(script.nodes, files).cooked(node)
    except nodes.Fault as fault:
        return 4, "", f"{script.echoed}sopcook: {fault}\n"
    return 0, FORMS[form](geo), script.echoed


def answer_of(words, files):
    """The answer to the words of a call, over files by their names."""
    parser = argparse.ArgumentParser()
    for name in "script", "node":
        parser.add_argument(name)
    parser.add_argument("--form", default="obj")
    parser.add_argument("-j", default="1")
    asked = parser.parse_args(words)
    return answer(files[asked.script], asked.node, files, asked.form)


def answer_to(case):
    """The answer that a row of a table of cases should want: texts are read as latin-1, and so are its files' names."""
    files = {name.encode("utf-8").decode("latin-1"): text for name, text in case["files"].items()}
    return answer_of(case["words"], files)


def rows_of(table):
    with open(table, encoding="utf-8") as lines:
        return [json.loads(line) for line in filter(str.strip, lines)]


def fill(table):
    rows = rows_of(table)
    with open(table, "w", encoding="utf-8") as lines:
        for row in rows:
            status, out, err = answer_to(row)
            lines.write(json.dumps({**row, "status": status, "out": out, "err": err}) + "\n")


def differing(table):
    """The rows that want another answer, of those whose command file isn't refused and whose files can be read."""
    cooked = [row for row in rows_of(table) if row["status"] in (0, 4)]
    return "; ".join(row["name"] for row in cooked if answer_to(row) != (row["status"], row["out"], row["err"]))


def differs(top, script, form):
    with open(f"{os.path.dirname(script)}/expected.{form}", encoding="latin-1", newline="") as file:
        wanted = file.read()
    status, out, _ = answer_of([script, "out", "--form", form], Disk(top))
    return "" if (status, out) == (0, wanted) else "another answer"


def shown_by(pattern):
    """What a pattern selects over the ten points of the reference's table, as the table shows it."""
    groups = {"left": {1, 2, 3}, "left_arm": {3, 4}, "tip": {9}}
    try:
        return " ".join(map(str, sorted(selected(pattern, 10, groups)))) or "nothing"
    except BadWord as word:
        return f"`BadGroup {word}`"
    except MissingGroup as word:
        return f"`NoGroup {word}`"


def misshown(top):
    """The rows of the reference's table of patterns that show something else."""
    with open(f"{top}/docs/REFERENCE.md", encoding="utf-8") as file:
        table = file.read().partition("| pattern | selects |\n|---|---|\n")[2].partition("\n\n")[0]
    rows = [line.strip("| ").split(" | ") for line in table.split("\n")]
    wrong = [pattern for pattern, shown in rows if shown_by(pattern.strip("`").replace("(empty)", "")) != shown]
    return "; ".join(wrong) if len(rows) > 1 else "no table"


def checks(top):
    yield "the reference's table of patterns", lambda: misshown(top)
    for table in sorted(glob.glob(f"{top}/tests/cases/*.jsonl")):
        yield f"the rows of {os.path.basename(table)}", lambda table=table: differing(table)
    for expected in sorted(glob.glob(f"{top}/examples/*/expected.*")):
        form = expected.rpartition(".")[2]
        for script in glob.glob(f"{os.path.dirname(expected)}/*.cmd") if form in FORMS else ():
            yield f"{os.path.relpath(script, top)} as {form}", lambda script=script, form=form: differs(top, script, form)


class Disk:
    """Files by their names, from a folder, read where they are asked for."""

    def __init__(self, folder):
        self.folder = folder

    def path(self, name):
        return os.path.join(os.fsencode(self.folder), name.encode("latin-1"))

    def __contains__(self, name):
        return os.path.isfile(self.path(name))

    def __getitem__(self, name):
        with open(self.path(name), encoding="latin-1", newline="") as file:
            return file.read()


def main():
    if sys.argv[1] == "--fill":
        return fill(sys.argv[2])
    status, out, err = answer_of(sys.argv[1:], Disk("."))
    for stream, text in (sys.stderr, err), (sys.stdout, out):
        stream.buffer.write(text.encode("latin-1"))
    return status


if __name__ == "__main__":
    sys.exit(main())
