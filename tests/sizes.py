"""Scripts, files and geometries at the limits of their sizes and past them, and networks of 1,024 nodes.

Each check is a name, the files by name and bytes (the script is `s`), the node to cook, and the wanted status, out
and err.
"""
MOST_BYTES = 4_194_304
MOST_NODES = 1024
MERGE = b"opadd merge m\n"
TWO_FILES = b"opadd file f\nopparm f file a.obj\nopadd file g\nopparm g file b.obj\n"
MERGED_FILES = TWO_FILES + MERGE + b"opwire m 0 f\nopwire m 1 g\n"
FILE = b"opadd file f\nopparm f file a.obj\n"


def written(out):
    return 0, out, b""


def refused(status, line):
    return status, b"", b"sopcook: " + line + b"\n"


def points(count):
    return b"v 0 0 0\n" * count


def faces(count, corner=b"1"):
    """Faces of one corner."""
    return b"f %s\n" % corner * count


def wide_faces(count, corner=b"1"):
    """Faces of 1,000 corners."""
    return (b"f" + b" %s" % corner * 1000 + b"\n") * count


def geometries():
    """A geometry has at most 1,000,000 points, 1,000,000 primitives and 4,000,000 vertices."""
    half, most, point = 500_000, 1_000_000, points(1)
    over = refused(4, b"m: Limit")
    merge = lambda a, b, more=b"": {"s": MERGED_FILES + more, "a.obj": a, "b.obj": b}
    yield "a merge of 1,000,000 points", merge(points(half), points(half)), "m", written(points(most))
    yield "a merge of 1,000,001 points", merge(points(half), points(half + 1)), "m", over
    behind = merge(points(half), points(half + 1), b"opadd file h\nopwire m 2 h\n")
    yield "a merge of 1,000,001 points and a missing file", behind, "m", refused(4, b"h: NoFile")

    # In a merge the faces of the second file name the second point.
    out = written(points(2) + faces(half) + faces(half, b"2"))
    yield "a merge of 1,000,000 primitives", merge(point + faces(half), point + faces(half)), "m", out
    yield "a merge of 1,000,001 primitives", merge(point + faces(1), point + faces(most)), "m", over
    out = written(points(2) + wide_faces(1000) + wide_faces(3000, b"2"))
    yield "a merge of 4,000,000 vertices", merge(point + wide_faces(1000), point + wide_faces(3000)), "m", out
    yield "a merge of 4,000,001 vertices", merge(point + faces(1), point + wide_faces(4000)), "m", over


def files():
    """A file has at most 1,000,000 points, 1,000,000 primitives and 4,000,000 references, whatever its lines say."""
    most, point, over = 1_000_000, points(1), refused(4, b"f: Limit")
    check = lambda name, text, wanted: (f"a file of {name}", {"s": FILE, "a.obj": text}, "f", wanted)
    yield check("1,000,000 points", points(most), written(points(most)))
    yield check("1,000,001 points", points(most + 1), over)
    yield check("1,000,001 points, and a line that is refused", b"v x\n" + points(most), over)
    yield check("1,000,001 faces", point + faces(most + 1), over)
    yield check("1,000,001 faces without a corner", point + b"f\n" * (most + 1), written(point))
    face = point + b"f" + b" 1" * 4_000_000
    yield check("a face of 4,000,000 corners", face, written(face + b"\n"))
    yield check("4,000,001 references that are no numbers", point + wide_faces(4000, b"x") + faces(1), over)
    yield check("4,001,000 references on p lines", point + b"p%s\n" % (b" 1" * 1000) * 4001, written(point))
    joined = point + b"f" + b" 1 \\\n" * most + b"\nf 2\n"
    yield check("a million lines in one, and one behind it", joined, refused(4, b"f: Index 1000003"))


def chain(first, parms, kind=b"attribcreate"):
    """A node, and behind it one of a type for each of some parameters, n0 and on, each over the one before it."""
    lines, over = [first], b"f"
    for i, parm in enumerate(parms):
        lines.append(b"opadd %s n%d\nopparm n%d %s\nopwire n%d 0 %s\n" % (kind, i, i, parm, i, over))
        over = b"n%d" % i
    return b"".join(lines)


def nodes():
    """A class has at most 64 attributes and 256 groups, and the values of a geometry weigh at most 40,000,000."""
    most = 1_000_000
    for klass, room in ("point", 63), ("detail", 64):
        names = [b"class %s name a%d" % (klass.encode(), i) for i in range(room + 1)]
        for count, wanted in (room, written(points(1))), (room + 1, refused(4, b"n%d: Limit" % room)):
            files = {"s": chain(FILE, names[:count]), "a.obj": points(1)}
            yield f"{count} further attributes of the class {klass}", files, f"n{count - 1}", wanted
    group = lambda name, count: points(1) + b"".join(b"g %s%d\nf 1\n" % (name, i) for i in range(count))
    both = {"s": MERGED_FILES, "a.obj": group(b"a", 128), "b.obj": group(b"b", 128)}
    out = group(b"a", 128) + group(b"b", 128).replace(b"f 1\n", b"f 2\n")
    out = points(2) + out.replace(points(1), b"")
    yield "a merge of 256 groups", both, "m", written(out)
    yield "a merge of 257 groups", {**both, "b.obj": group(b"b", 129)}, "m", refused(4, b"m: Limit")

    # A place weighs 3 and a string of 288 bytes 37.
    for size, wanted in (288, written(points(most))), (296, refused(4, b"n0: Limit")):
        text = b"name a kind string value " + b"x" * size
        files = {"s": chain(FILE, [text]), "a.obj": points(most)}
        yield f"1,000,000 points, each with a string of {size} bytes", files, "n0", wanted
    added = b"opadd add a\nopparm a points '0 0 0'\nopwire a 0 f\n"
    yield "a point more than 1,000,000", {"s": FILE + added, "a.obj": points(most)}, "a", refused(4, b"a: Limit")

    out = b"".join(b"v 0 %d 0\n" % i for i in range(most))
    out += b"l%s\n" % b"".join(b" %d" % i for i in range(1, most + 1))
    script = b"opadd line n\nopparm n points 1000000 dist 999999\n"
    yield "a line of 1,000,000 points", {"s": script}, "n", written(out)
    script = b"opadd grid n\nopparm n rows 1000 cols 1000 sizex 999 sizez 999\n"
    yield "a grid of 1,000 rows and columns", {"s": script}, "n", written(grid(1000))


def patterns():
    """Faults of a group pattern go before Limit; a pattern has at most 1,024 bytes; a class has at most 256 groups."""
    check = lambda name, parms, wanted, kind: (name, {"s": chain(FILE, parms, kind), "a.obj": points(1)}, f"n{len(parms) - 1}", wanted)
    names = [b"name a%d" % i for i in range(64)]
    for word, fault in (b"1x", b"BadGroup 1"), (b"gone", b"NoGroup 1"):
        parms = [*names[:-1], names[-1] + b" group '0 %s'" % word]
        yield check(f"64 further attributes of the class point, and the word {word.decode()}", parms, refused(4, b"n63: " + fault), b"attribcreate")
    for klass in "point", "prim", "vertex":
        names = [b"class %s name a%d" % (klass.encode(), i) for i in range(257)]
        yield check(f"256 groups of the class {klass}", names[:-1], written(points(1)), b"groupcreate")
        yield check(f"257 groups of the class {klass}", names, refused(4, b"n256: Limit"), b"groupcreate")
        bad = [*names[:-1], names[-1] + b" group !!"]
        yield check(f"257 groups of the class {klass}, and a bad word", bad, refused(4, b"n256: BadGroup 0"), b"groupcreate")
    words = lambda last: [b"class point group '%s'" % (b"1 " * 511 + last)]
    yield check("a pattern of 1,024 bytes", words(b"^0"), written(points(1)), b"blast")
    yield check("a pattern of 1,024 bytes, whose last word is bad", words(b"1x"), refused(4, b"n0: BadGroup 511"), b"blast")

    line = b"opadd line f\nopparm f points 1000000 dist 999999\n"
    ends = [b"class point group '1-999998 ^500000'"]
    out = b"v 0 0 0\nv 0 500000 0\nv 0 999999 0\nl 1 2 3\n"
    yield "a blast that leaves 3 of 1,000,000 points", {"s": chain(line, ends, b"blast")}, "n0", written(out)
    lifted = [b"t '1 0 0' group '999999 1000000 999999999999999999'"]
    out = b"".join(b"v 0 %d 0\n" % i for i in range(999_999)) + b"v 1 999999 0\nl%s\n" % b"".join(b" %d" % i for i in range(1, 1_000_001))
    yield "the last of 1,000,000 points is moved", {"s": chain(line, lifted, b"xform")}, "n0", written(out)


def grid(count):
    """A grid of so many rows and columns, an even number, a unit apart."""
    half = lambda c: b"%s%d.5" % (b"-" if 2 * c < count else b"", abs(2 * c - count + 1) // 2)
    places = b"".join(b"v %s 0 %s\n" % (half(c), half(r)) for r in range(count) for c in range(count))
    corner = lambda r, c: r * count + c + 1
    quad = lambda r, c: (corner(r, c), corner(r, c + 1), corner(r + 1, c + 1), corner(r + 1, c))
    return places + b"".join(b"f %d %d %d %d\n" % quad(r, c) for r in range(count - 1) for c in range(count - 1))


def scripts():
    """A script has at most 4 MiB and 1,024 nodes, and echoes at most 1 MiB."""
    filled = lambda script, line, size: script + line * ((size - len(script)) // len(line))
    check = lambda name, script, wanted: (name, {"s": script}, "m", wanted)
    comment = filled(MERGE, b"#", MOST_BYTES)
    yield check("a script of 4 MiB, with one comment", comment, written(b""))
    yield check("a script of 4 MiB and a byte", comment + b"#", refused(3, b"script: TooLong"))
    sets = filled(MERGE, b"# a variable\nset a = 'some text'\n", MOST_BYTES)
    yield check("a script of 4 MiB, with comments and variables", sets, written(b""))

    nodes = MERGE + b"".join(b"opadd null n%d\n" % i for i in range(1, MOST_NODES))
    yield check("1,024 nodes", nodes, written(b""))
    yield check("1,024 nodes after one was removed", nodes + b"oprm n7\nopadd null x\n", written(b""))
    for name, command, kind in [
        ("1,025 nodes", b"opadd null x", b"Limit"),
        ("1,025 nodes, the last of a type that isn't there", b"opadd volume x", b"NoType"),
        ("1,025 nodes, the last with a name that is taken", b"opadd null m", b"NameTaken"),
    ]:
        yield check(name, nodes + command + b"\n", refused(3, b"line 1025: " + kind))

    lines = [b"x" * 65_535 + b"\n"] * 16
    echoes = MERGE + b"".join(b"echo " + line for line in lines)
    yield check("1 MiB is echoed", echoes, (0, b"", b"".join(lines)))
    yield check("1 MiB and a line end are echoed", echoes + b"echo\n", refused(3, b"line 18: Limit"))


def row_of(kind, inputs):
    """A file node n0, and behind it all other nodes in a row, each wired to the one before it at so many inputs."""
    lines = [b"opadd file n0", b"opparm n0 file a.obj"]
    for i in range(1, MOST_NODES):
        lines.append(b"opadd %s n%d" % (kind, i))
        lines += [b"opwire n%d %d n%d" % (i, input, i - 1) for input in range(inputs)]
    return b"\n".join(lines) + b"\n"


def networks():
    last, point = f"n{MOST_NODES - 1}", b"v 1 2 3\n"
    yield "1,023 nulls in a row", {"s": row_of(b"null", 1), "a.obj": point}, last, written(point)
    yield "1,023 switches in a row", {"s": row_of(b"switch", 32), "a.obj": point}, last, written(point)
    yield "1,023 xforms in a row", {"s": row_of(b"xform", 1), "a.obj": point}, last, written(point)
    yield "1,023 enumerates in a row", {"s": row_of(b"enumerate", 1), "a.obj": point}, last, written(point)
    yield "1,023 blasts in a row", {"s": row_of(b"blast", 1), "a.obj": point}, last, written(point)
    merges = row_of(b"merge", 32)
    yield "1,023 merges in a row, each wired 32 times", {"s": merges, "a.obj": b""}, last, written(b"")
    yield "1,023 merges in a row over a missing file", {"s": merges}, last, refused(4, b"n0: NoFile")


def checks():
    yield from geometries()
    yield from files()
    yield from nodes()
    yield from patterns()
    yield from scripts()
    yield from networks()
