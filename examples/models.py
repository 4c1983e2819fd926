"""The examples with more than places and faces: two over OBJ files in the forms that other programs export, and one
that needs no file. What they give is put together from the same lists of numbers that the files are written from.
"""
from decimals import UNIT, decimal

ZERO = (0, 0, 0)
HALF, QUARTER = UNIT // 2, UNIT // 4


def vector(numbers):
    return " ".join(map(decimal, numbers))


def fixed(numbers, places=6):
    """Numbers as exporters write them, with a fixed number of places."""
    return " ".join(f"{number / UNIT:.{places}f}" for number in numbers)


class Model:
    """Points with colours or none; primitives, each as whether it is closed, its corners and its groups. A corner is a
    point, a texture coordinate and a normal; there are none of these two where `textured` is not set."""

    def __init__(self, places, prims, colours=None, textured=False):
        self.places, self.prims, self.colours, self.textured = places, prims, colours, textured
        self.corners = [corner for _, corners, _ in prims for corner in corners]

    def obj(self):
        colours = [" " + vector(colour) for colour in self.colours] if self.colours else [""] * len(self.places)
        lines = [f"v {vector(place)}{colour}" for place, colour in zip(self.places, colours)]
        if self.textured:
            lines += [f"vt {vector(texture)}" for _, texture, _ in self.corners]
            lines += [f"vn {vector(normal)}" for _, _, normal in self.corners]
        groups, vertex = [], 0
        for closed, corners, names in self.prims:
            if names != groups:
                lines.append(" ".join(["g", *names]))
            groups, words = names, []
            for point, _, _ in corners:
                vertex += 1
                words.append(f"{point + 1}/{vertex}/{vertex}" if self.textured else f"{point + 1}")
            lines.append(" ".join(["f" if closed else "l", *words]))
        return "\n".join(lines) + "\n"

    def listing(self, detail, prim, groups=None):
        """The listing, with the lines of attributes of the detail and of primitives, and of groups where these aren't those
        of the primitives by first use."""
        lines = [f"points {len(self.places)}", f"vertices {len(self.corners)}", f"prims {len(self.prims)}"]
        for number, (closed, corners, _) in enumerate(self.prims):
            points = " ".join(str(point) for point, _, _ in corners)
            lines.append(f"prim {number} {'closed' if closed else 'open'} {points}")
        lines += detail + prim + ["attr point vector P", *map(vector, self.places)]
        lines += ["attr point vector Cd", *map(vector, self.colours)]
        return "\n".join(lines + (self.groups() if groups is None else groups)) + "\n"

    def groups(self):
        lines = []
        for name in dict.fromkeys(name for _, _, names in self.prims for name in names):
            members = [str(number) for number, (_, _, names) in enumerate(self.prims) if name in names]
            lines.append(" ".join(["group", "prim", name, *members]))
        return lines


# Of a box with its corners in the order of x, then z, then y: the corners of each side, and where the side looks.
CRATE_SIDES = [
    ("sides", (2, 3, 7, 6), (0, 0, UNIT)),
    ("sides", (3, 1, 5, 7), (UNIT, 0, 0)),
    ("sides", (1, 0, 4, 5), (0, 0, -UNIT)),
    ("sides", (0, 2, 6, 4), (-UNIT, 0, 0)),
    ("lid", (6, 7, 5, 4), (0, UNIT, 0)),
    ("bottom", (0, 1, 3, 2), (0, -UNIT, 0)),
]
CRATE_PLACES = [(x, y, z) for y in (0, UNIT) for z in (-HALF, HALF) for x in (-HALF, HALF)]
CRATE_TEXTURES = [(0, 0, 0), (UNIT, 0, 0), (UNIT, UNIT, 0), (0, UNIT, 0)]


def crate_file():
    """CR LF, a fixed number of places, materials and smoothing, and a normal for each side."""
    lines = ["# A crate, in the form that modelling programs export", "mtllib crate.mtl", "o Crate"]
    lines += [f"v {fixed(place)}" for place in CRATE_PLACES]
    lines += [f"vt {fixed(texture[:2])}" for texture in CRATE_TEXTURES]
    lines += [f"vn {fixed(normal, 4)}" for _, _, normal in CRATE_SIDES]
    part = ""
    for side, (name, points, _) in enumerate(CRATE_SIDES, 1):
        if name != part:
            lines += [f"g Crate crate.{name}", f"usemtl {'Paint' if name == 'lid' else 'Wood'}", "s off"]
        part = name
        lines.append("f " + " ".join(f"{point + 1}/{corner}/{side}" for corner, point in enumerate(points, 1)))
    return "\r\n".join(lines) + "\r\n"


def crate_made():
    """The crate, then one of half its size a unit higher."""
    small = [(x // 2, y // 2 + UNIT, z // 2) for x, y, z in CRATE_PLACES]
    prims = [
        (True, [(first + p, at, normal) for p, at in zip(points, CRATE_TEXTURES)], ["Crate", f"crate_{name}"])
        for first in (0, len(CRATE_PLACES))
        for name, points, normal in CRATE_SIDES
    ]
    return Model(CRATE_PLACES + small, prims, textured=True)


SHORE = [(-2 * UNIT, 0, -UNIT), (2 * UNIT, 0, -UNIT), (2 * UNIT, QUARTER, UNIT), (-2 * UNIT, QUARTER, UNIT)]
SHORE_COLOUR = (HALF, 400_000, 300_000)
BED, BED_COLOUR = (0, -750_000, 0), (50_000, 200_000, 600_000)
POST = (3 * UNIT, UNIT, 0)


def survey_file():
    """Colours behind places, indices that count back, a joined line, tabs, and points as an element."""
    colour = fixed(SHORE_COLOUR, 2)
    lines = ["# A pond, in the form that surveys export", "#", "# x y z red green blue", "g pond 1st-bank"]
    lines += [f"v\t{fixed(place, 2)}\t{colour}" for place in SHORE[:2]]
    lines += [f"v\t{fixed(BED, 2)}\t{fixed(BED_COLOUR, 2)}\t# the deepest point", "f -3 -2 -1", ""]
    lines += ["g pond"] + [f"v\t{fixed(place, 2)}\t{colour}" for place in SHORE[2:]]
    lines += ["f -4 -2 -3", "f -2 -1 -3", "f -1 1 -3", "", "# a post, without a colour: its fourth number is a weight"]
    lines += [f"v\t{fixed(POST, 2)}\t1.0", "p -1", "g shore", "l 1 2 4 \\", "\t5 1"]
    return "\n".join(lines) + "\n"


def survey_made():
    points = [*SHORE[:2], BED, *SHORE[2:], POST]
    colours = [SHORE_COLOUR] * 2 + [BED_COLOUR] + [SHORE_COLOUR] * 2 + [ZERO]
    shape = lambda closed, corners, names: (closed, [(point, None, None) for point in corners], names)
    prims = [
        shape(True, [0, 1, 2], ["pond", "_1st_bank"]),
        shape(True, [1, 3, 2], ["pond"]),
        shape(True, [3, 4, 2], ["pond"]),
        shape(True, [4, 0, 2], ["pond"]),
        shape(False, [0, 1, 3, 4, 0], ["shore"]),
    ]
    return Model(points, prims, colours)


def field_made():
    """A grid of three rows and four columns, its z doubled and a quarter higher; behind it a box of six sides."""
    ground = [(x * UNIT, QUARTER, z * UNIT) for z in (-2, 0, 2) for x in (-3, -1, 1, 3)]
    hut = [(x, y, z) for z in (-HALF, HALF) for y in (QUARTER, UNIT + 3 * QUARTER) for x in (-HALF, HALF)]
    quads = [[r * 4 + c, r * 4 + c + 1, r * 4 + c + 5, r * 4 + c + 4] for r in range(2) for c in range(3)]
    sides = [[0, 2, 3, 1], [4, 5, 7, 6], [0, 1, 5, 4], [2, 6, 7, 3], [0, 4, 6, 2], [1, 3, 7, 5]]
    quads += [[len(ground) + corner for corner in side] for side in sides]
    prims = [(True, [(point, None, None) for point in quad], []) for quad in quads]
    return Model(ground + hut, prims, [(200_000, 600_000, 100_000)] * len(ground) + [ZERO] * len(hut))


def made():
    """All files of these examples, by their path below this folder."""
    survey, field = survey_made(), field_made()
    title = ["attr detail string title", '"The \\"old\\" pond"']
    ids = ["attr prim int id", *map(str, range(len(survey.prims)))]
    plots = ["attr prim int plot", *map(str, range(6)), *["0"] * 6]
    return {
        "crate/crate.obj": crate_file(),
        "crate/expected.obj": crate_made().obj(),
        "survey/survey.obj": survey_file(),
        "survey/expected.obj": survey.obj(),
        "survey/expected.list": survey.listing(title, ids),
        "field/expected.obj": field.obj(),
        "field/expected.list": field.listing([], plots),
    }
