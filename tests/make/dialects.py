"""Drawings in the dialects of the OFF family, written at random."""


def number(rng, whole, digits):
    """A whole number divided by a power of ten, in any of the ways in which programs write it."""
    sign, size = "-" if whole < 0 else rng.choice(["", "", "+"]), str(abs(whole)).rjust(digits + 1, "0")
    plain = size[:len(size) - digits] + "." + size[len(size) - digits:]
    forms = [plain, plain + "00", f"{abs(whole)}e-{digits}", f"{abs(whole)}.0E-0{digits}", f"0.{size}e{len(size) - digits}"]
    forms += [plain.lstrip("0")] if size[len(size) - digits:] else []
    forms += [size] if digits == 0 else []
    return sign + rng.choice(forms)


def colour(rng):
    return rng.choice([["1", "0.5", "0", "1"], ["255", "0", "7"], [".3", ".2", ".1"]])


def vertex(rng, row, digits, keyword):
    """A vertex with what its keyword asks for."""
    words = [number(rng, n, digits) for n in row] + ["1.0"] * ("4" in keyword)
    words += ["0", "-0.6", "0.8"] * ("N" in keyword) + (colour(rng) if keyword.startswith(("C", "STC")) else [])
    return words + ["0.25", "1e-3"] * ("ST" in keyword)


def face(rng, corners, coloured):
    words = [str(len(corners))] + [str(corner) for corner in corners]
    return words + rng.choice([[], ["12"], colour(rng)]) * coloured


def written(rng, rows, faces):
    """The text of a solid whose coordinates are divided by a power of ten."""
    digits = rng.randrange(4) if any(n % 10 for row in rows for n in row) else 0
    keyword = rng.choice(["", "ST"]) + rng.choice(["", "C"]) + rng.choice(["", "N"]) + rng.choice(["", "4"]) + "OFF"
    coloured = rng.random() < 0.5
    head = [[keyword]] if keyword != "OFF" or rng.random() < 0.8 else []
    lines = head + [[str(len(rows)), str(len(faces)), "0"]]
    lines += [vertex(rng, row, digits, keyword) for row in rows] + [face(rng, corners, coloured) for corners in faces]
    gap, end, comment = rng.choice([" ", "\t", "  \t"]), rng.choice(["\n", "\r\n", "\r"]), rng.choice(["", "", " # W\xfcrfel 3 4 5"])
    text = "".join(gap.join(line) + rng.choice(["", gap, comment]) + rng.choice([end, end, end + end]) for line in lines)
    return rng.choice([b"", b"\xef\xbb\xbf"]) + text.encode("latin-1")


def damaged(rng, text):
    """A text with some bytes lost, changed or put in."""
    for _ in range(rng.randint(1, 3)):
        where = rng.randrange(len(text) + 1)
        new = rng.choice([b"", b"", b" ", b"\n", b"0", b"9", b"-", b".", b"#", b"\xff", b"e9", b"\0", b"3 ", b"far 1 2 3\n"])
        text = text[:where] + new + text[where + rng.choice([0, 1, 1, 6]):]
    return text
