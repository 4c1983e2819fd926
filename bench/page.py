"""What the measurements share: the machine's name, and the page docs/BENCH.md, of which each script writes its own part."""
import datetime
import os
import platform
import re
import textwrap

TOP = os.path.dirname(os.path.dirname(os.path.realpath(__file__)))
WIDTH = 100
TITLE = "# Measurements\n\nThese are measurements. No proof speaks of time or of how much memory a run takes.\n"


def processor():
    try:
        with open("/proc/cpuinfo", encoding="utf-8") as file:
            return next(line.partition(":")[2].strip() for line in file if line.startswith("model name"))
    except (OSError, StopIteration):
        return platform.machine()


def table(head, sides):
    """The first two lines of a table, whose columns lie to the left (`<`) or to the right (`>`)."""
    rules = ["---" if side == "<" else "---:" for side in sides]
    return ["| " + " | ".join(head) + " |", "|" + "|".join(rules) + "|"]


def line(cells):
    return "| " + " | ".join(cells) + " |"


def put(heading, text, lines):
    """Puts the part of this heading, its text and its table into docs/BENCH.md, and keeps the other parts."""
    today = datetime.date.today().isoformat()
    text = textwrap.fill(text, WIDTH, break_long_words=False, break_on_hyphens=False)
    part = f"## {heading}\n\n{text}\n\nMeasured on {today}, {processor()}.\n\n" + "\n".join(lines) + "\n"
    path = f"{TOP}/docs/BENCH.md"
    old = ""
    if os.path.exists(path):
        with open(path, encoding="utf-8") as file:
            old = file.read()
    parts = re.split(r"^(?=## )", old, flags=re.MULTILINE)[1:]
    names = [it.partition("\n")[0] for it in parts]
    parts = [it.rstrip("\n") + "\n" for it in parts]
    if f"## {heading}" in names:
        parts[names.index(f"## {heading}")] = part
    else:
        parts.append(part)
    os.makedirs(f"{TOP}/docs", exist_ok=True)
    with open(path, "w", encoding="utf-8") as file:
        file.write("\n".join([TITLE, *parts]))
