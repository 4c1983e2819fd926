"""Geometries as plain lists: their merge, what a removal leaves, and their listing."""
import copy

from second.figures import UNIT, decimal

CLASSES = ("detail", "prim", "point", "vertex")
DEFAULTS = {"int": 0, "float": 0, "vector": (0, 0, 0), "string": ""}


class Table:
    """One class: how many elements it has, attributes (a kind, and a value each) and groups (the members) by name."""

    def __init__(self, count=0):
        self.count, self.attributes, self.groups = count, {}, {}

    def grow(self, more):
        self.count += more
        for kind, values in self.attributes.values():
            values += [DEFAULTS[kind]] * more

    def add(self, name, kind):
        self.attributes[name] = kind, [DEFAULTS[kind]] * self.count

    def values(self, name):
        return self.attributes[name][1]

    def picked(self, numbers):
        """The elements with these numbers, in this order."""
        places = {number: place for place, number in enumerate(numbers)}
        made = Table(len(numbers))
        made.attributes = {name: (kind, [values[number] for number in numbers]) for name, (kind, values) in self.attributes.items()}
        made.groups = {name: {places[number] for number in members & set(numbers)} for name, members in self.groups.items()}
        return made


class Geo:
    """The table of each class, and of each primitive whether it is closed and the points of its vertices."""

    def __init__(self):
        self.tables = {name: Table(1 if name == "detail" else 0) for name in CLASSES}
        self.tables["point"].add("P", "vector")
        self.closed, self.corners = [], []

    def places(self):
        return self.tables["point"].values("P")

    def add_points(self, places):
        """Adds points at these places, and gives the number of the first."""
        first = self.tables["point"].count
        self.tables["point"].grow(len(places))
        self.places()[first:] = places
        return first

    def add_prim(self, closed, points):
        self.tables["prim"].grow(1)
        self.tables["vertex"].grow(len(points))
        self.closed.append(closed)
        self.corners.append(list(points))

    def vertices(self):
        """The primitive and the point of each vertex, by its number."""
        return [(prim, point) for prim, points in enumerate(self.corners) for point in points]


def put(kind, value, wanted):
    """A value where another kind is wanted, or the default where it doesn't go there."""
    if kind == wanted:
        return value
    if (kind, wanted) == ("int", "float") and abs(value) <= 1_000_000_000:
        return value * UNIT
    if (kind, wanted) == ("float", "int"):
        return value // UNIT if value >= 0 else -(-value // UNIT)
    return DEFAULTS[wanted]


def merged(geos):
    made = Geo()
    for geo in geos:
        points = made.tables["point"].count
        made.closed += geo.closed
        made.corners += [[point + points for point in corners] for corners in geo.corners]
        for name in CLASSES:
            if name == "detail":
                join_detail(made.tables[name], geo.tables[name])
            else:
                join(made.tables[name], geo.tables[name])
    return made


def join_detail(table, behind):
    for name, attribute in behind.attributes.items():
        table.attributes.setdefault(name, copy.deepcopy(attribute))


def join(table, behind):
    first = table.count
    for name, (kind, _) in behind.attributes.items():
        if name not in table.attributes:
            table.add(name, kind)
    table.grow(behind.count)
    for name, (kind, values) in behind.attributes.items():
        wanted, mine = table.attributes[name]
        mine[first:] = [put(kind, value, wanted) for value in values]
    for name, members in behind.groups.items():
        table.groups.setdefault(name, set()).update(first + number for number in members)


def swept(geo, points=(), vertices=(), prims=(), and_points=False):
    """What is left where the elements with these numbers go, and with them what can't stay."""
    points, vertices, prims = set(points), set(vertices), set(prims)
    corners = geo.vertices()
    stays = [number for number, (prim, point) in enumerate(corners)
             if number not in vertices and prim not in prims and point not in points]
    used = {corners[number][1] for number in stays}
    left = {corners[number][0] for number in stays}
    loose = {point for prim, point in corners if prim in prims} - used if and_points else set()
    keep = {
        "detail": [0],
        "prim": [number for number in range(len(geo.corners)) if number in left],
        "point": [number for number in range(geo.tables["point"].count) if number not in points | loose],
        "vertex": stays,
    }
    place = {number: at for at, number in enumerate(keep["point"])}
    made = Geo()
    made.tables = {name: geo.tables[name].picked(numbers) for name, numbers in keep.items()}
    made.closed = [geo.closed[prim] for prim in keep["prim"]]
    made.corners = [[place[corners[number][1]] for number in stays if corners[number][0] == prim] for prim in keep["prim"]]
    return made


def weight(geo):
    total = 0
    for table in geo.tables.values():
        for kind, values in table.attributes.values():
            total += sum(1 + len(value) // 8 for value in values) if kind == "string" else len(values) * (3 if kind == "vector" else 1)
    return total


def fits(geo):
    counts = [geo.tables[name].count for name in ("point", "prim", "vertex")]
    return (
        all(count <= most for count, most in zip(counts, (1_000_000, 1_000_000, 4_000_000)))
        and all(len(table.attributes) <= 64 and len(table.groups) <= 256 for table in geo.tables.values())
        and weight(geo) <= 40_000_000
    )


def shown(kind, value):
    """A value as the listing prints it."""
    if kind == "string":
        escapes = {'"': '\\"', "\\": "\\\\", "\n": "\\n"}
        plain = lambda byte: f"\\x{ord(byte):02x}" if byte < " " or byte == "\x7f" else byte
        return '"' + "".join(escapes.get(byte) or plain(byte) for byte in value) + '"'
    if kind == "vector":
        return " ".join(map(decimal, value))
    return decimal(value) if kind == "float" else str(value)


def listing(geo):
    lines = [f"{name}s {geo.tables[table].count}" for name, table in (("point", "point"), ("vertice", "vertex"), ("prim", "prim"))]
    for number, (closed, points) in enumerate(zip(geo.closed, geo.corners)):
        lines.append(" ".join(["prim", str(number), "closed" if closed else "open", *map(str, points)]))
    for name in CLASSES:
        for attribute, (kind, values) in geo.tables[name].attributes.items():
            lines.append(f"attr {name} {kind} {attribute}")
            lines += [shown(kind, value) for value in values]
    for name in CLASSES[1:]:
        for group, members in geo.tables[name].groups.items():
            lines.append(" ".join(["group", name, group, *map(str, sorted(members))]))
    return "".join(line + "\n" for line in lines)
