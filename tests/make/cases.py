"""Texts and drawings, right and wrong, with what is said of them."""

TEXT = (b"# two solids\nfar 100 101 103\nsolid A\nv 0 0 0\nv 4 0 0\nv 0 4 0\nf 1 2 3\nf 1 2 3\n"
        b"solid B\nv 1 1 1\nv 2 2 2\nv 3 3 4\nf 1 2 3\nf 1 2 3\n")
TETRAHEDRON = b"4 4 6\n0 0 0\n1 0 0\n0 1 0\n0 0 1\n3 0 2 1\n3 0 1 3\n3 1 2 3\n3 2 0 3\n"
CLOSED = "note: the solid is closed"
MANY = (b"OFF 49 2 0\n" + b"".join(b"%d %d 0\n" % (k, k * k) for k in range(49))
        + 2 * (b"49 " + b" ".join(b"%d" % k for k in range(49)) + b"\n"))
# Each triangle of the tetrahedron with three vertices of its own.
SOUP = (b"OFF 12 4 0\n0 0 0\n1 0 0\n0 1 0\n0 0 1\n0 0 0\n1 0 0\n1 0 0\n0 1 0\n0 0 1\n0 0 0\n0 1 0\n0 0 1\n"
        b"3 0 2 1\n3 4 5 3\n3 6 7 8\n3 10 9 11\n")

# A name, the text, and what is said.
WRONG_TEXTS = [
    ("a misspelt word", TEXT.replace(b"far", b"fra"), "a.txt, line 2: no line begins with `fra`"),
    ("a misspelt word before far", b"vv 1 2 3\n" + TEXT, "a.txt, line 1: no line begins with `vv`"),
    ("no far point", TEXT.replace(b"far", b"#"), "a.txt: there is no far point"),
    ("a second far point", TEXT + b"far 1 2 3\n", "a.txt, line 15: a second far point; the first stands in line 2"),
    ("a scene", b"SC\x03\x02\x03\x02FP" + bytes(83), "a.txt: this is a scene already"),
    ("not UTF-8", b"# A\n# W\xfcrfel\n" + TEXT, "a.txt, line 2: the byte 252 is not UTF-8"),
    ("UTF-16", TEXT.decode().encode("utf-16"), "a.txt: this is a text in UTF-16"),
    ("no whole number", TEXT.replace(b"v 4 0 0", b"v 4.0 0 0"), "a.txt, line 5: 4.0 is no whole number"),
    ("a number without room", TEXT.replace(b"v 4 0 0", b"v 40000 0 0"), "a.txt, line 5: 40000 has no room"),
    ("a number of many digits", TEXT.replace(b"v 4", b"v " + b"4" * 5000), "a.txt, line 5: 444"),
    ("a terminal's commands", b"\x1b[2J\n", "line 1: no line begins with `\\x1b[2J`"),
    ("too many vertices", TEXT + b"v 1 1 1\n" * 300, "a.txt: B has 303 vertices"),
    ("like itself", b"like a\n", "this text is like itself"),
    ("like nothing", b"like nothing\n", "a.txt, line 1: nothing.txt: No such file"),
    ("like, too late", TEXT + b"like printed\n", "a.txt, line 15: `like` comes too late: line 2 would be lost"),
    ("a vertex, too late", TEXT + b"cut 1\nv 1 2 3\n", "a.txt, line 16: this line comes too late: the bytes were made in line 15"),
    ("a record that is not there", TEXT + b"record 99 VX 1 2 3 4\n", "a.txt, line 15: there is no record 99"),
    ("too few numbers for a record", TEXT + b"record 2 VX 1\n", "a.txt, line 15: record 2 has no room for these numbers"),
    ("a byte beyond the end", TEXT + b"set 500 1\n", "a.txt, line 15: this line writes 1 bytes from byte 500 on"),
    ("a byte of 256", TEXT + b"append 256\n", "a.txt, line 15: 256 has no room"),
    ("more cut than there is", TEXT + b"cut 500\n", "a.txt, line 15: 500 bytes cannot be taken away"),
]

# A name, the drawing, and what is said.
WRONG_DRAWINGS = [
    ("nothing", b"", "line 1: the text ends here, and the keyword OFF must follow"),
    ("another form", b"ply\n", "line 1: ply stands where the keyword must stand"),
    ("binary", b"OFF BINARY\n\0\0\0\4", "line 1: this is a binary OFF file"),
    ("a scene", b"SC\x03\x02\x03\x02FP" + bytes(83), "this is a scene, and no OFF text"),
    ("UTF-16", "OFF".encode("utf-16"), "this is a text in UTF-16"),
    ("four dimensions", b"nOFF 4\n" + TETRAHEDRON, "line 1: a vertex has three coordinates here"),
    ("two counts", b"OFF\n" + TETRAHEDRON.replace(b"4 4 6", b"4 4"), "line 2: two counts stand here"),
    ("a decimal comma", b"OFF\n" + TETRAHEDRON.replace(b"1 0 0", b"1,0 0 0"), "line 4: 1,0 stands where a coordinate of vertex 1"),
    ("no number", b"OFF\n" + TETRAHEDRON.replace(b"1 0 0", b"nan 0 0"), "line 4: nan stands where"),
    ("a huge exponent", b"OFF\n" + TETRAHEDRON.replace(b"1 0 0", b"1e9999 0 0"), "line 4: 1e9999 stands where"),
    ("a corner too many", b"OFF\n" + TETRAHEDRON.replace(b"3 1 2 3", b"3 1 2 4"), "line 9: face 2 has the corner 4"),
    ("cut off", b"OFF\n" + TETRAHEDRON[:-4], "the text ends here, and a corner of face 3 must follow"),
    ("more behind it", b"OFF\n" + TETRAHEDRON + b"3 0 1 2\n", "line 11: 3 follows the last of the 4 faces"),
    ("colours without the keyword", b"OFF 4 1 0\n0 0 0 9 9 9\n1 0 0 9 9 9\n0 1 0 9 9 9\n0 0 1 9 9 9\n3 0 1 2\n", "is the keyword COFF"),
    ("a colour of two numbers", b"OFF\n" + TETRAHEDRON.replace(b"3 1 2 3", b"3 1 2 3 1 1"), "line 9: 2 numbers follow face 2 on its line"),
    ("a vertex without its colour", b"COFF\n" + TETRAHEDRON, "line 3: 0 numbers stand behind the coordinates of vertex 0"),
    ("a face that crosses itself", b"OFF 4 1 0\n0 0 0\n1 1 0\n1 0 0\n0 1 0\n4 0 1 2 3\n", "line 6: the border of this face meets itself"),
]

# A name, the drawing, the scale, what is said, and what is written, or None.
DRAWINGS = [
    ("a text of the form", b"OFF\n" + TETRAHEDRON, None, [CLOSED], b"OFF\n" + TETRAHEDRON),
    ("on one line", b"OFF " + TETRAHEDRON.replace(b"\n", b" "), None, [CLOSED], b"OFF\n" + TETRAHEDRON),
    ("no keyword", TETRAHEDRON, None, ["note: no keyword stands", CLOSED], b"OFF\n" + TETRAHEDRON),
    ("tabs, CRLF, a mark", b"\xef\xbb\xbfOFF\n" + TETRAHEDRON.replace(b" ", b"\t").replace(b"\n", b"\r\n"), None,
     ["note: left out: a byte order mark, line ends of Windows, tabs", CLOSED], b"OFF\n" + TETRAHEDRON),
    ("a scale", b"OFF\n" + TETRAHEDRON, "2.5",
     ["note: every coordinate is multiplied by 2.5;", "coordinates rounded: 3 of 12, by at most 0.5, which is 0.2 in the drawing", CLOSED],
     b"OFF\n# every coordinate is 2.5 times that of the drawing\n" + TETRAHEDRON.replace(b"1 0 0", b"2 0 0").replace(b"0 1 0", b"0 2 0")
     .replace(b"0 0 1\n", b"0 0 2\n")),
    ("a large scale", b"OFF\n" + TETRAHEDRON, "5000", ["note: coordinates not from -4095 to 4095: 3"], None),
    ("too small a scale", b"OFF\n" + TETRAHEDRON, "1e-3",
     ["note: vertices that rounding has put where another one stands: 3", "note: triangles of no area: 4"], None),
    ("large numbers", b"OFF\n" + TETRAHEDRON.replace(b"1 0 0", b"40951 0 0"), None,
     ["note: every coordinate is multiplied by 0.1;", "coordinates rounded: 3 of 12, by at most 0.1, which is 1 in the drawing"], None),
    ("a vertex too many", b"OFF\n" + TETRAHEDRON.replace(b"4 4 6\n", b"5 4 6\n9 9 9\n").replace(b"3 0 2 1\n3 0 1 3\n3 1 2 3\n3 2 0 3\n",
     b"3 1 3 2\n3 1 2 4\n3 2 3 4\n3 3 1 4\n"), None, ["note: vertices left out, which are in no face: 1"], b"OFF\n" + TETRAHEDRON),
    ("a vertex twice", b"OFF\n" + TETRAHEDRON.replace(b"4 4 6\n", b"5 4 6\n").replace(b"3 0 2 1", b"0 0 0\n3 4 2 1"), None,
     ["note: vertices made one with another that has the same numbers: 1", CLOSED], None),
    ("a face of two corners", b"OFF\n" + TETRAHEDRON.replace(b"4 4 6\n", b"4 5 6\n") + b"2 0 1\n", None,
     ["note: faces left out, which have fewer than three different corners: 1", CLOSED], b"OFF\n" + TETRAHEDRON),
    ("a corner twice", b"OFF\n" + TETRAHEDRON.replace(b"3 0 2 1", b"4 0 2 2 1"), None,
     ["note: faces in which a corner follows an equal one, and is left out: 1", CLOSED], b"OFF\n" + TETRAHEDRON),
    ("an open solid", b"OFF\n" + TETRAHEDRON.replace(b"4 4 6\n", b"4 3 6\n").replace(b"3 2 0 3\n", b""), None,
     ["note: the solid is open"], None),
    ("weights", b"4OFF 3 2 0\n0 0 0 0.5\n1 0 0 -20\n0 1 0 16\n3 0 1 2\n3 0 1 2\n", "20",
     ["note: weights that are no whole number from -16 to 16: 2;", CLOSED],
     b"4OFF\n# every coordinate is 20 times that of the drawing\n3 2 3\n0 0 0 1\n1 0 0 -1\n0 20 0 16\n3 0 1 2\n3 0 1 2\n"),
    ("a weight of 0", b"4OFF 3 2 0\n0 0 0 1\n1 0 0 0\n0 1 0 1\n3 0 1 2\n3 0 1 2\n", None, ["note: vertices of weight 0: 1"], None),
    ("weights of both signs", b"4OFF 4 2 0\n0 0 0 1\n1 0 0 -1\n1 1 0 1\n0 1 0 1\n4 0 1 2 3\n4 0 1 2 3\n", None,
     ["note: faces of weights of both signs or 0: 2,"], None),
    ("a face that is not flat", b"OFF 4 2 0\n0 0 0\n1 0 0\n1 1 1\n0 1 0\n4 0 1 2 3\n4 3 2 1 0\n", None,
     ["note: faces of more than three corners that are not flat, once rounded: 2"], None),
    ("a face on one line", b"OFF 4 2 0\n0 0 0\n1 0 0\n2 0 0\n3 0 0\n4 0 1 2 3\n4 0 1 2 3\n", None,
     ["note: triangles of no area: 4", CLOSED], None),
    ("a corner that comes back", b"4OFF 4 2 0\n0 0 0 1\n1 0 0 -1\n1 1 0 1\n0 1 0 1\n5 0 1 2 0 3\n3 0 1 2\n", None,
     ["note: triangles left out, which have two equal corners: 2", "note: vertices left out, which are in no face: 1", CLOSED],
     b"4OFF\n3 2 3\n0 0 0 1\n1 0 0 -1\n1 1 0 1\n3 0 1 2\n3 0 1 2\n"),
    ("a weight that bends a face in", b"4OFF 4 2 0\n4 0 0 1\n4 4 0 4\n0 4 0 1\n0 0 0 1\n4 0 1 2 3\n4 0 1 2 3\n", None,
     ["cut into 4 triangles; not convex: 2", CLOSED],
     b"4OFF\n4 4 5\n4 0 0 1\n4 4 0 4\n0 4 0 1\n0 0 0 1\n3 1 2 3\n3 0 1 3\n3 1 2 3\n3 0 1 3\n"),
    ("a third", b"4OFF 3 2 0\n1 0 0 0.3\n1 0 0 1\n0 1 0 1\n3 0 1 2\n3 0 1 2\n", "1", ["rounded: 1 of 9, by at most 0.333334,"], None),
    ("three dimensions", b"nOFF 3 " + TETRAHEDRON, None, [CLOSED], b"OFF\n" + TETRAHEDRON),
    ("an edge in three faces", b"OFF 3 3 0\n0 0 0\n1 0 0\n0 1 0\n3 0 1 2\n3 0 1 2\n3 0 1 2\n", None,
     ["note: the solid is open, edges in an odd number of triangles: 3, the first from vertex 0 to vertex 1"], None),
    ("large round numbers", b"OFF 3 2 0\n0 0 0\n40900 0 0\n0 40900 0\n3 0 1 2\n3 0 1 2\n", None,
     ["every coordinate is multiplied by 0.1;", CLOSED],
     b"OFF\n# every coordinate is 0.1 times that of the drawing\n3 2 3\n0 0 0\n4090 0 0\n0 4090 0\n3 0 1 2\n3 0 1 2\n"),
    ("many vertices", MANY, None, ["note: vertices: 49, and a solid of a scene has 3 to 48", "corners: 2, cut into 94 triangles"], None),
    ("a soup of triangles", SOUP, None, ["vertices made one with another that has the same numbers: 8", CLOSED], b"OFF\n" + TETRAHEDRON),
]
