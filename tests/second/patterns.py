"""Group patterns: the words of a text, and which elements of a class they select."""
import re

from second.figures import words

NAME = re.compile(r"[A-Za-z_][A-Za-z0-9_]{0,63}")
WILD = re.compile(r"[A-Za-z_*?][A-Za-z0-9_*?]*")
RANGE = re.compile(r"(?P<first>[0-9]{1,18})(?:-(?P<last>[0-9]{1,18})(?::(?P<some>[0-9]{1,18})(?:,(?P<each>[0-9]{1,18}))?)?)?")


class BadWord(Exception):
    pass


class MissingGroup(Exception):
    pass


def stands_for(text, name):
    """Whether a text with `*` (any number of bytes) and `?` (one byte) stands for a name."""
    expression = "".join({"*": ".*", "?": "."}.get(byte) or re.escape(byte) for byte in text)
    return re.fullmatch(expression, name, re.DOTALL) is not None


def selected(text, count, groups):
    """The elements of a class of so many elements, with these groups, that a text selects."""
    split = [(word[0], word[1:]) if word[0] in "!^" else ("", word) for word in words(text)]
    for number, (_, atom) in enumerate(split):
        if not is_good(atom):
            raise BadWord(number)
    for number, (_, atom) in enumerate(split):
        if NAME.fullmatch(atom) and atom not in groups:
            raise MissingGroup(number)
    if not split:
        return set(range(count))
    chosen = set()
    for effect, atom in split:
        elements = held(atom, count, groups)
        if effect == "^":
            chosen -= elements
        else:
            chosen |= set(range(count)) - elements if effect == "!" else elements
    return chosen


def is_good(atom):
    numbers = RANGE.fullmatch(atom)
    if numbers:
        divisor = numbers["each"] or numbers["some"]
        return divisor is None or int(divisor) >= 1
    return bool(NAME.fullmatch(atom)) or (bool(WILD.fullmatch(atom)) and bool(set("*?") & set(atom)))


def held(atom, count, groups):
    if atom == "*":
        return set(range(count))
    numbers = RANGE.fullmatch(atom)
    if not numbers:
        return set().union(*[members for name, members in groups.items() if stands_for(atom, name)])
    first = int(numbers["first"])
    last = int(numbers["last"]) if numbers["last"] else first
    step, most = int(numbers["each"] or numbers["some"] or 1), int(numbers["some"]) if numbers["each"] else 1
    return {number for number in range(min(first, count), min(last + 1, count)) if (number - first) % step < most}
