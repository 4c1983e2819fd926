"""OBJ texts read and written."""
import re

from second.figures import decimal, numeral
from second.geometry import Geo

MARK = "\xef\xbb\xbf"
JOINT = chr(256)  # where two lines were joined; no byte
BLANKS = re.compile("[ \t\r\v\f]+")


class Refused(Exception):
    """Why a file gives no geometry: Limit, or Number or Index with a line."""


def lines_of(text):
    """The number of each line, and its words before a comment. A joined line has the number of its first part."""
    number = 1
    text = text[len(MARK) :] if text.startswith(MARK) else text
    for line in re.sub(r"\\\r?\n", " " + JOINT, text).split("\n"):
        kept = []
        for word in filter(None, BLANKS.split(line.replace(JOINT, " "))):
            if word[0] == "#":
                break
            kept.append(word)
        yield number, kept
        number += 1 + line.count(JOINT)


def read(text):
    lines = [(number, words) for number, words in lines_of(text) if words]
    return Reader(lines).geo


class Reader:
    def __init__(self, lines):
        count = lambda keyword: sum(words[0] == keyword for _, words in lines)
        shapes = [len(words) - 1 for _, words in lines if words[0] in "fl" and len(words[0]) == 1 and len(words) > 1]
        if count("v") > 1_000_000 or len(shapes) > 1_000_000 or sum(shapes) > 4_000_000:
            raise Refused("Limit")
        self.totals = {keyword: count(keyword) for keyword in ("v", "vt", "vn")}
        self.read = {"v": [], "vt": [], "vn": []}
        self.later, self.prims, self.groups = [], [], []
        for self.line, words in lines:
            self.statement(*words)
        self.geo = self.made()

    def statement(self, keyword, *words):
        if keyword == "v":
            numbers = self.numbers(words[:6] if len(words) >= 6 else words[:3], 3)
            self.read["v"].append((tuple(numbers[:3]), tuple(numbers[3:]) or None))
        elif keyword == "vt":
            numbers = self.numbers(words[:3], 1)
            self.read["vt"].append(tuple(numbers + [0] * (3 - len(numbers))))
        elif keyword == "vn":
            self.read["vn"].append(tuple(self.numbers(words[:3], 3)))
        elif keyword in ("f", "l", "p"):
            corners = [self.reference(word) for word in words]
            if keyword != "p" and corners:
                self.prims.append((keyword == "f", corners, self.groups))
        elif keyword == "g":
            self.groups = [mended(word) for word in words]

    def numbers(self, words, least):
        numbers = [numeral(word) for word in words]
        if len(numbers) < least or None in numbers:
            raise Refused(f"Number {self.line}")
        return numbers

    def reference(self, word):
        """The numbers of a point, a texture coordinate and a normal; None for those that aren't named."""
        parts = word.split("/")
        if len(parts) > 1 and not parts[-1]:
            parts.pop()
        named = []
        for place, part in enumerate(parts):
            if place and not part and place < 3:
                named.append(None)
            elif place > 2 or not re.fullmatch("[+-]?[0-9]+", part):
                raise Refused(f"Number {self.line}")
            else:
                named.append(self.element(("v", "vt", "vn")[place], int(part), part[0] == "-"))
        return named + [None] * (3 - len(named))

    def element(self, keyword, index, back):
        number = len(self.read[keyword]) + index if back else index - 1
        if index == 0 or not 0 <= number < (len(self.read[keyword]) if back else self.totals[keyword]):
            raise Refused(f"Index {self.line}")
        return number

    def made(self):
        geo = Geo()
        geo.add_points([place for place, _ in self.read["v"]])
        if any(colour for _, colour in self.read["v"]):
            geo.tables["point"].attributes["Cd"] = "vector", [colour or (0, 0, 0) for _, colour in self.read["v"]]
        for closed, corners, _ in self.prims:
            geo.add_prim(closed, [point for point, _, _ in corners])
        corners = [corner for _, corners, _ in self.prims for corner in corners]
        for name, keyword, place in (("uv", "vt", 1), ("N", "vn", 2)):
            if any(corner[place] is not None for corner in corners):
                values = [(0, 0, 0) if corner[place] is None else self.read[keyword][corner[place]] for corner in corners]
                geo.tables["vertex"].attributes[name] = "vector", values
        for number, (_, _, names) in enumerate(self.prims):
            self.join(geo.tables["prim"].groups, number, names)
        return geo

    def join(self, groups, number, names):
        for name in names:
            if name in groups or len(groups) < 256:
                groups.setdefault(name, set()).add(number)


def mended(word):
    name = re.sub("[^A-Za-z0-9_]", "_", word)
    return (("_" if name[0].isdigit() else "") + name)[:64]


def text_of(geo):
    point, vertex, prim = (geo.tables[name] for name in ("point", "vertex", "prim"))
    vectors = lambda table, name: table.attributes[name][1] if table.attributes.get(name, ("",))[0] == "vector" else None
    colours, textures, normals = vectors(point, "Cd"), vectors(vertex, "uv"), vectors(vertex, "N")
    row = lambda *words: " ".join(words) + "\n"
    behind = lambda number: map(decimal, colours[number]) if colours else ()
    text = "".join(row("v", *map(decimal, place), *behind(number)) for number, place in enumerate(geo.places()))
    text += "".join(row("vt", *map(decimal, value)) for value in textures or ())
    text += "".join(row("vn", *map(decimal, value)) for value in normals or ())
    before, number = [], 0
    for at, (closed, points) in enumerate(zip(geo.closed, geo.corners)):
        names = [name for name, members in prim.groups.items() if at in members]
        if names != before:
            text += row("g", *names)
        words = []
        for corner in points:
            number += 1
            words.append(reference_of(corner + 1, number, textures is not None, closed and normals is not None))
        before, text = names, text + row("f" if closed else "l", *words)
    return text


def reference_of(point, vertex, textured, normal):
    if normal:
        return f"{point}/{vertex if textured else ''}/{vertex}"
    return f"{point}/{vertex}" if textured else f"{point}"
