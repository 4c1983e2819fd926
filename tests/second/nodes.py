"""What nodes give: a geometry, or a fault."""
import copy
import re

from second import geometry, obj
from second.figures import MOST_INT, OutOfRange, in_range, numeral, numerals, product, rounded, words
from second.geometry import Geo
from second.patterns import NAME, BadWord, MissingGroup, selected, stands_for

OPTIONAL = ("add", "merge")
INPUTS = {"add": 1, "null": 1, "xform": 1, "attribcreate": 1, "attribdelete": 1, "enumerate": 1, "merge": 32, "blast": 1, "groupcreate": 1}


class Fault(Exception):
    pass


def vector(text):
    return tuple(numerals(text))


def vectors(text):
    numbers = numerals(text)
    return list(zip(numbers[0::3], numbers[1::3], numbers[2::3]))


def chosen(geo, class_name, text):
    """The elements that a group pattern selects."""
    table = geo.tables[class_name]
    try:
        return selected(text, table.count, table.groups)
    except BadWord as word:
        raise Fault(f"BadGroup {word}") from None
    except MissingGroup as word:
        raise Fault(f"NoGroup {word}") from None


def places(count, place_of):
    made = []
    for number in range(count):
        try:
            made.append(place_of(number))
        except OutOfRange:
            raise Fault(f"Range {number}") from None
    return made


def file(parms, inputs, files):
    if parms.get("file", "") not in files:
        raise Fault("NoFile")
    text = files[parms["file"]]
    if len(text) > 64 << 20:
        raise Fault("Limit")
    try:
        return obj.read(text)
    except obj.Refused as why:
        raise Fault(str(why)) from None


def add(parms, inputs, files):
    geo, new = inputs[0] or Geo(), vectors(parms.get("points", ""))
    first, poly = geo.add_points(new), parms.get("poly", "none")
    if new and poly != "none":
        geo.add_prim(poly == "closed", range(first, first + len(new)))
    return geo


def line(parms, inputs, files):
    origin, way = vector(parms.get("origin", "0 0 0")), vector(parms.get("dir", "0 1 0"))
    length, count = numeral(parms.get("dist", "1")), int(parms.get("points", "2"))
    step = lambda i: rounded(length * i, count - 1) if count > 1 else 0
    geo = Geo()
    geo.add_points(places(count, lambda i: tuple(in_range(a + product(b, step(i))) for a, b in zip(origin, way))))
    geo.add_prim(False, range(count))
    return geo


def grid(parms, inputs, files):
    rows, columns = int(parms.get("rows", "10")), int(parms.get("cols", "10"))
    across = lambda size, i, count: rounded(size * (2 * i - (count - 1)), 2 * (count - 1)) if count > 1 else 0
    x = lambda c: across(numeral(parms.get("sizex", "10")), c, columns)
    z = lambda r: across(numeral(parms.get("sizez", "10")), r, rows)
    geo = Geo()
    geo.add_points([(x(c), 0, z(r)) for r in range(rows) for c in range(columns)])
    for r in range(rows - 1):
        for c in range(columns - 1):
            here, there = r * columns + c, (r + 1) * columns + c
            geo.add_prim(True, [here, here + 1, there + 1, there])
    return geo


def box(parms, inputs, files):
    center = vector(parms.get("center", "0 0 0"))
    half = [rounded(size, 2) for size in vector(parms.get("size", "1 1 1"))]
    side = lambda i, axis: in_range(center[axis] + (half[axis] if i >> axis & 1 else -half[axis]))
    geo = Geo()
    geo.add_points(places(8, lambda i: tuple(side(i, axis) for axis in range(3))))
    for points in ((0, 2, 3, 1), (4, 5, 7, 6), (0, 1, 5, 4), (2, 6, 7, 3), (0, 4, 6, 2), (1, 3, 7, 5)):
        geo.add_prim(True, points)
    return geo


def xform(parms, inputs, files):
    geo, move, scale = inputs[0], vector(parms.get("t", "0 0 0")), vector(parms.get("s", "1 1 1"))
    some = chosen(geo, "point", parms.get("group", ""))
    old = geo.places()
    moved = lambda place: tuple(in_range(product(p, s) + t) for p, s, t in zip(place, scale, move))
    old[:] = places(len(old), lambda i: moved(old[i]) if i in some else old[i])
    return geo


def value_of(kind, text):
    """The value that a text says, or None where it isn't one of the kind."""
    if text == "":
        return geometry.DEFAULTS[kind]
    if kind == "int":
        number = int(text) if re.fullmatch("-?[0-9]+", text) else None
        return number if number is not None and -MOST_INT - 1 <= number <= MOST_INT else None
    if kind == "vector":
        numbers = vector(text)
        return numbers if len(numbers) == 3 and None not in numbers else None
    return numeral(text) if kind == "float" else text


def with_head(table, name, kind):
    """The values of an attribute that stays with its kind; one of another kind goes, and a new one stands last."""
    if table.attributes.get(name, ("",))[0] != kind:
        table.attributes.pop(name, None)
        table.add(name, kind)
    return table.values(name)


def attribcreate(parms, inputs, files):
    geo, class_name, name, kind = inputs[0], parms.get("class", "point"), parms.get("name", ""), parms.get("kind", "float")
    value = value_of(kind, parms.get("value", ""))
    if not NAME.fullmatch(name) or value is None or ((class_name, name) == ("point", "P") and kind != "vector"):
        raise Fault("BadParm")
    some = chosen(geo, class_name, parms.get("group", ""))
    values = with_head(geo.tables[class_name], name, kind)
    values[:] = [value if number in some else old for number, old in enumerate(values)]
    return geo


def attribdelete(parms, inputs, files):
    class_name, geo = parms.get("class", "point"), inputs[0]
    attributes = geo.tables[class_name].attributes
    for name in list(attributes):
        matched = any(stands_for(word, name) for word in words(parms.get("names", "")))
        if matched and (class_name, name) != ("point", "P"):
            del attributes[name]
    return geo


def enumerate_(parms, inputs, files):
    geo, class_name, name = inputs[0], parms.get("class", "point"), parms.get("name", "index")
    if not NAME.fullmatch(name) or (class_name, name) == ("point", "P"):
        raise Fault("BadParm")
    some = chosen(geo, class_name, parms.get("group", ""))
    values = with_head(geo.tables[class_name], name, "int")
    for count, number in enumerate(sorted(some)):
        values[number] = count
    return geo


def blast(parms, inputs, files):
    geo, class_name = inputs[0], parms.get("class", "prim")
    some = chosen(geo, class_name, parms.get("group", ""))
    if parms.get("negate", "0") == "1":
        some = set(range(geo.tables[class_name].count)) - some
    marks = {"prims": some, "and_points": parms.get("unused", "1") == "1"} if class_name == "prim" else {}
    if class_name == "point":
        marks = {"points": some}
    if class_name == "vertex":
        marks = {"vertices": some}
    return geometry.swept(geo, **marks)


def groupcreate(parms, inputs, files):
    geo, name = inputs[0], parms.get("name", "")
    if not NAME.fullmatch(name):
        raise Fault("BadParm")
    table = geo.tables[parms.get("class", "point")]
    some = chosen(geo, parms.get("class", "point"), parms.get("group", ""))
    old = table.groups.get(name, set())
    ways = {"replace": some, "union": old | some, "intersect": old & some, "subtract": old - some}
    table.groups[name] = ways[parms.get("op", "replace")]
    return geo


def merge(parms, inputs, files):
    return geometry.merged([geo for geo in inputs if geo])


def hand_on(parms, inputs, files):
    return inputs[0]


MAKERS = {
    "file": file, "add": add, "line": line, "grid": grid, "box": box, "null": hand_on, "switch": hand_on, "xform": xform,
    "attribcreate": attribcreate, "attribdelete": attribdelete, "enumerate": enumerate_, "merge": merge, "blast": blast,
    "groupcreate": groupcreate,
}


def made(kind, parms, inputs, files):
    geo = MAKERS[kind](parms, copy.deepcopy(inputs), files)
    if not geometry.fits(geo):
        raise Fault("Limit")
    return geo
