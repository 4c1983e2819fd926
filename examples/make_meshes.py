#!/usr/bin/env python3
"""Makes the OBJ files of the examples, and what each example gives (its expected.obj, and its expected.list).

    make_meshes.py [--check]

Nothing here asks sopcook: what an example gives is put together from the same meshes by the rule for merging, input by
input, with the point numbers of each input raised by the points before it. The examples with colours, texture
coordinates, normals or groups stand in models.py and facades.py. With --check nothing is written: the files in place are compared, and
the status is 1 where one differs.
"""
import os
import sys

import facades
import models
from decimals import UNIT, decimal

HERE = os.path.dirname(os.path.realpath(__file__))


def obj(mesh, numeral=decimal, gap=""):
    """The OBJ text of a mesh: a list of points, and a list of faces that name points from 1."""
    points, faces = mesh
    lines = [f"v {numeral(x)} {numeral(y)} {numeral(z)}\n" for x, y, z in points]
    return "".join(lines) + gap + "".join("f " + " ".join(map(str, face)) + "\n" for face in faces)


def merged(*meshes):
    points, faces = [], []
    for some, those in meshes:
        faces += [[point + len(points) for point in face] for face in those]
        points += some
    return points, faces


def triangle(x, z):
    """A triangle of unit sides along x and y."""
    return [(x, 0, z), (x + UNIT, 0, z), (x, UNIT, z)], [[1, 2, 3]]


def box(low, high):
    """Six quads between two opposite corners."""
    corners = [(x, y, z) for y in (low[1], high[1]) for z in (low[2], high[2]) for x in (low[0], high[0])]
    return corners, [[1, 2, 4, 3], [5, 7, 8, 6], [1, 5, 6, 2], [3, 4, 8, 7], [1, 3, 7, 5], [2, 6, 8, 4]]


def roof(low, high):
    """A pyramid of four triangles on a quad, with its tip over the middle."""
    (x, y, z), (u, top, w) = low, high
    points = [(x, y, z), (u, y, z), (u, y, w), (x, y, w), ((x + u) // 2, top, (z + w) // 2)]
    return points, [[1, 2, 3, 4], [2, 1, 5], [3, 2, 5], [4, 3, 5], [1, 4, 5]]


def steps(count, x, y, z):
    """A stepped pyramid of `count` boxes about the axis through x and z, each half a unit high and a unit narrower."""
    half = UNIT // 2
    sizes = [(count - step) * half for step in range(count)]
    return merged(
        *[
            box((x - size, y + step * half, z - size), (x + size, y + (step + 1) * half, z + size))
            for step, size in enumerate(sizes)
        ]
    )


def terrain(count):
    """A grid of count by count quads, each a unit wide, whose heights come from a fixed rule on whole numbers."""
    height = lambda i, j: (i * i * 7 + j * j * 11 + i * j * 5) % 97 * 12_345 - UNIT // 2
    points = [(i * UNIT, height(i, j), j * UNIT) for j in range(count + 1) for i in range(count + 1)]
    row = count + 1
    corner = lambda i, j: j * row + i + 1
    faces = [
        [corner(i, j), corner(i, j + 1), corner(i + 1, j + 1), corner(i + 1, j)]
        for j in range(count)
        for i in range(count)
    ]
    return points, faces


def letter(rows, x):
    """A letter of cubes, one for each mark of its rows, which stand from top to bottom."""
    cubes = []
    for down, row in enumerate(rows):
        for along, mark in enumerate(row):
            if mark == "#":
                low = (x + along * UNIT, (len(rows) - 1 - down) * UNIT, 0)
                cubes.append(box(low, tuple(at + UNIT for at in low)))
    return merged(*cubes)


def point(*texts):
    """A point of the example about numerals: what is written, and the millionths that it means."""
    return texts[0::2], texts[1::2]


def made():
    """All files, by their path below this folder."""
    files = {**models.made(), **facades.made()}

    left = triangle(0, 0)
    right = triangle(2 * UNIT, UNIT // 2)
    files["first/left.obj"] = obj(left)
    files["first/right side.obj"] = obj(right, numeral=lambda number: f"{number / UNIT:.2f}")
    files["first/expected.obj"] = obj(merged(left, right))

    house = box((0, 0, 0), (2 * UNIT, 1_500_000, 3 * UNIT))
    top = roof((-250_000, 1_500_000, -250_000), (2_250_000, 2_750_000, 3_250_000))
    files["merge/a.obj"] = obj(house)
    files["merge/b.obj"] = obj(top)
    files["merge/expected.obj"] = obj(merged(house, top))

    flat = box((-250_000, 1_500_000, -250_000), (2_250_000, 1_750_000, 3_250_000))
    files["roofs/walls.obj"] = obj(house)
    files["roofs/tip roof.obj"] = obj(top)
    files["roofs/flat roof.obj"] = obj(flat)
    files["roofs/expected.obj"] = obj(merged(house, flat))

    shapes = {
        "s": ("###", "#..", "###", "..#", "###"),
        "o": ("###", "#.#", "#.#", "#.#", "###"),
        "p": ("###", "#.#", "###", "#..", "#.."),
    }
    letters = {name: letter(rows, place * 4 * UNIT) for place, (name, rows) in enumerate(shapes.items())}
    for name, mesh in letters.items():
        files[f"letters/{name}.obj"] = obj(mesh, gap="\n")
    files["letters/expected.obj"] = obj(merged(*letters.values()))

    ground = terrain(16)
    hill = steps(5, 8 * UNIT, UNIT, 8 * UNIT)
    hut = box((UNIT, 750_000, UNIT), (1_875_000, 1_500_000, 2 * UNIT))
    files["terrain/ground.obj"] = obj(ground, gap="\n")
    files["terrain/pyramid.obj"] = obj(hill, gap="\n")
    files["terrain/hut.obj"] = obj(hut, gap="\n")
    files["terrain/expected.obj"] = obj(merged(hut, merged(ground, hill)))

    tent = [
        point("1e0", UNIT, "+0.50", UNIT // 2, "-.25", -UNIT // 4),
        point("0.0000005", 1, "-0.0000005", -1, "0.00000049", 0),
        point("12.5e-1", 1_250_000, "5.", 5 * UNIT, "007", 7 * UNIT),
        point("-0", 0, "1E3", 1000 * UNIT, "999999999.9999995", 1_000_000_000 * UNIT),
    ]
    faces = [[1, 2, 3], [1, 3, 4], [1, 4, 2], [4, 3, 2]]
    written = "".join("v " + " ".join(texts) + "\n" for texts, _ in tent)
    files["numerals/tent.obj"] = written + "\n" + obj(([], faces))
    files["numerals/expected.obj"] = obj(([numbers for _, numbers in tent], faces))
    return files


def main():
    different = 0
    for path, text in made().items():
        place = os.path.join(HERE, path)
        if "--check" in sys.argv[1:]:
            with open(place, "rb") as file:
                if file.read() != text.encode():
                    print(f"examples/{path} differs from what make_meshes.py makes")
                    different = 1
        else:
            with open(place, "wb") as file:
                file.write(text.encode())
    return different


if __name__ == "__main__":
    sys.exit(main())
