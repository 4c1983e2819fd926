"""The example whose parts are groups: a wall of faces by row and column, and what becomes of each of them."""
from decimals import UNIT, decimal
from models import HALF, QUARTER, Model

ROWS, COLUMNS = 12, 13
GROUPS = ("windows", "blind", "shop", "door", "lit")
PLASTER, STONE, GLASS = (850_000, 800_000, 700_000), (HALF, HALF, HALF), (550_000, 700_000, 850_000)
FACES = [(row, column) for row in range(ROWS) for column in range(COLUMNS)]
POINTS = [(row, column) for row in range(ROWS + 1) for column in range(COLUMNS + 1)]


def place(row, column, depth=0):
    return (column * UNIT - COLUMNS * HALF, row * UNIT, depth)


def corners(row, column):
    """The points of a face, counter-clockwise from the front."""
    return [(row, column), (row, column + 1), (row + 1, column + 1), (row + 1, column)]


def wall_file():
    """The wall as a plain file: points and faces alone."""
    lines = [f"v {' '.join(map(decimal, place(*point)))}" for point in POINTS]
    lines += ["f " + " ".join(str(POINTS.index(point) + 1) for point in corners(*face)) for face in FACES]
    return "\n".join(lines) + "\n"


def is_blind(row, column):
    return row in (7, 8) and column in (4, 5)


def is_window(row, column):
    if row == 10:
        return column % 2 == 1
    return row in (4, 5, 7, 8) and column % 3 != 0 and not is_blind(row, column)


def is_shop(row, column):
    return row in (1, 2) and column in (1, 2, 3, 4, 8, 9, 10, 11)


def is_door(row, column):
    return row < 3 and column == 6


def is_lit(row, column):
    return is_window(row, column) and FACES.index((row, column)) % 5 < 2


TESTS = dict(zip(GROUPS, (is_window, is_blind, is_shop, is_door, is_lit)))
PARTS = {
    "plinth": lambda row, column: row == 0,
    "cornice": lambda row, column: row == ROWS,
    "bay": lambda row, column: 4 <= row <= 9 and column in (6, 7),
}
DEPTHS = {"plinth": QUARTER, "cornice": HALF, "bay": UNIT}


def depth_of(point):
    return sum(DEPTHS[name] for name, test in PARTS.items() if test(*point))


def colour_of(point):
    return STONE if PARTS["plinth"](*point) or PARTS["cornice"](*point) else PLASTER


def facade_made():
    """The wall with its openings, then the panes, each with the points that its faces use. The model, and its listing."""
    opening = lambda face: is_window(*face) or is_shop(*face) or is_door(*face)
    pane = lambda face: is_window(*face) or is_shop(*face)
    parts = [[face for face in FACES if not opening(face)], [face for face in FACES if pane(face)]]
    faces = [(behind, face) for behind, part in enumerate(parts) for face in part]
    used = [{point for face in part for point in corners(*face)} for part in parts]
    points = [(behind, point) for behind in (0, 1) for point in POINTS if point in used[behind]]
    numbers = {point: number for number, point in enumerate(points)}

    places = [place(*point, depth_of(point) - behind * QUARTER) for behind, point in points]
    colours = [GLASS if behind else colour_of(point) for behind, point in points]
    corner = lambda behind, point: (numbers[behind, point], None, None)
    names = lambda face: [name for name in GROUPS if TESTS[name](*face)]
    prims = [(True, [corner(behind, point) for point in corners(*face)], names(face)) for behind, face in faces]
    model = Model(places, prims, colours)

    windows = [face for face in FACES if is_window(*face)]
    ids = [str(windows.index(face)) if face in windows else "0" for _, face in faces]
    members = lambda kind, name, test, all: " ".join(["group", kind, name, *[str(i) for i, (_, it) in enumerate(all) if test(*it)]])
    groups = [members("prim", name, test, faces) for name, test in TESTS.items()]
    groups += [members("point", name, test, points) for name, test in PARTS.items()]
    return model, model.listing([], ["attr prim int window", *ids], groups)


def made():
    model, listing = facade_made()
    return {"facade/wall.obj": wall_file(), "facade/expected.obj": model.obj(), "facade/expected.list": listing}
