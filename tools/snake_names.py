#!/usr/bin/env python3
"""Brings the repository's own definitions and lemmas to one spelling: words in snake case, a prime as an apostrophe.

usage: tools/snake_names.py [--list]     at the top, once, after the scripts that turned the rest

A name is turned where it is defined below specs/ or as a lemma in proofs/, and in every file that means this one: a file that imports a
name of the same letters from elsewhere keeps it there. Members of generated records, Rust names, strings and comments stay.
"""
import collections
import pathlib
import re
import sys

WORD = re.compile(r"(?<![\w'′◌⟦«-])(?:[*+]ℤ[\w'′-]*|[^\W\d_][\w'′]*(?:-[\w'′]+)*|\d+-[*\w'′-]+)")
DEFINED = re.compile(
    r"^( *)(?:(?:pub|abbrev|unfoldable) )*(?:(data|record|ruleset|syntax) )?((?:[*+]ℤ)?[^\s(){}\[\],;.:◌\"]+)(?: : |$| =| where| \{)"
)
FIELD = re.compile(r"^  (?:pub )?([^\W\d_][\w'′-]*) : ")


def wants(name):
    """Whether a name is still in the old spelling."""
    if "◌" in name or not name.strip("-"):
        return False
    return "-" in name or "′" in name or bool(re.search(r"[a-z0-9][A-Z]", name) and name[0].islower())


def snake(name):
    name = name.replace("′", "'")
    if re.match(r"[a-z]", name) or "-" in name:
        name = re.sub(r"(?<=[a-z0-9])([A-Z])(?![A-Z])", r"_\1", name) if not name[0].isupper() else name
        name = name if name[0].isupper() else name.lower()
    return name.replace("-", "_")


def lemma_files():
    for p in sorted(pathlib.Path("crates").glob("*/*/**/*.antt")):
        parts = p.parts
        if "out" in parts or parts[2] not in ("specs", "proofs"):
            continue
        yield p, p.name in ("Proof.antt",) and parts[2] == "proofs"


def defined():
    """The names defined in specs/ and lemma files, and the fields of records."""
    names, fields, plain = collections.Counter(), set(), set()
    for p, walk in lemma_files():
        if walk:
            continue
        record = False
        for line in p.read_text().splitlines():
            if re.match(r"(?:(?:pub|abbrev|unfoldable) )*record ", line):
                record = True
            elif line and not line.startswith(" "):
                record = False
            m = FIELD.match(line)
            if record and m:
                fields.add(m.group(1))
                if wants(m.group(1)):
                    names[m.group(1)] += 1
                else:
                    plain.add(m.group(1))
                continue
            m = DEFINED.match(line)
            if m:
                (names.update([m.group(3)]) if wants(m.group(3)) else plain.add(m.group(3)))
    return names, fields, plain


def spellings(found, plain):
    """Each name's new spelling. Where two fall together, a lemma (its name had a hyphen) takes `_law`."""
    taken = set(plain) | {snake(n) for n in found if "-" not in n}
    names = dict(FIELDS)
    for n in sorted(set(found) - set(FIELDS)):
        s = snake(n)
        if "-" in n and s in taken:
            s += "_law"
        if s != n:
            names[n] = s
    return names


def foreign(text):
    """The names that a file imports from outside the repository, and the aliases of modules outside it."""
    names, aliases = set(), set()
    for m in re.finditer(r"^(?:pub )?(?:ghost )?use ([^\n{;]*?)(?:\.?\{([^}]*)\})?(?: as (\w+))?;?$", text, re.M):
        path, inside, alias = m.groups()
        first = path.split(".")
        ours = len(first) > 1 and first[0] == "Rattle" and first[1] in CRATES and (len(first) < 3 or first[2] == "specs" or not tied(first))
        if ours:
            continue
        for n in (inside or "").split(","):
            n = n.strip()
            if n:
                names.add(n.split(" as ")[-1].strip())
        if alias:
            aliases.add(alias)
        elif inside is None:
            aliases.add(first[-1].strip())
    return names, aliases


def tied(path):
    return path[-1].strip() in ("Tie", "Statement", "Goals", "Names")


CRATES = set()

# Their snake case is that of a struct's field, which a clause would then mean.
FIELDS = {"facesA": "faces_in_a", "facesB": "faces_in_b", "vertices-a": "vertices_a_law", "vertices-b": "vertices_b_law"}


def turned(text, names, fields, rust):
    skip, aliases = foreign(text)
    out, at = [], 0
    pieces = re.compile(r'b?"(?:[^"\\]|\\.)*"|//[^\n]*|--[^\n]*' if rust else r'"(?:[^"\\\n]|\\.)*"|(?:(?<=\s)|^)--[^\n]*', re.M)

    def code(part):
        def word(m):
            w = m.group(0)
            if w not in names:
                return w
            before = part[: m.start()]
            if before.endswith("."):
                owner = re.search(r"([\w'′₀-₉-]+|\))\.$", before)
                owner = owner.group(1) if owner else ""
                module = owner[:1].isupper() or owner in MODULES
                if owner in aliases:
                    return w
                if not module and w not in fields:
                    return w
            elif w in skip:
                return w
            return names[w]

        return WORD.sub(word, part)

    for m in pieces.finditer(text):
        out.append(code(text[at : m.start()]))
        piece = m.group(0)
        if not piece.startswith(('"', 'b"')):
            piece = re.sub(r"`[^`\n]*`", lambda q: code(q.group(0)), piece)
        out.append(piece)
        at = m.end()
    out.append(code(text[at:]))
    return "".join(out)


MODULES = set()


def main():
    CRATES.update(p.name for p in pathlib.Path("crates").iterdir())
    found, fields, plain = defined()
    names = spellings(found, plain)
    if "--list" in sys.argv:
        for n, s in sorted(names.items()):
            print(n, s)
        return
    files = [p for p in sorted(pathlib.Path("crates").glob("*/*/**/*")) if p.suffix in (".rt", ".antt") and "out" not in p.parts]
    for p in files:
        text = p.read_text()
        for m in re.finditer(r"use Rattle\.(\w+)\.[\w.]+ as (\w+)", text):
            if m.group(1) in CRATES and not m.group(0).split(" as ")[0].endswith((".Tie", ".Statement", ".Goals")):
                MODULES.add(m.group(2))
    for p in files:
        text = p.read_text()
        new = turned(text, names, fields, p.suffix == ".rt")
        if new != text:
            p.write_text(new)
    for p in [pathlib.Path("README.md"), *sorted(pathlib.Path("docs").rglob("*.md"))]:
        text = p.read_text()
        spell = lambda m: WORD.sub(lambda w: names.get(w.group(0), w.group(0)), m.group(0)) if "." not in m.group(0)[-5:-1] and "/" not in m.group(0) else m.group(0)
        new = re.sub(r"`[^`\n]*`", spell, text)
        if new != text and p.name != "PORT.md":
            p.write_text(new)


if __name__ == "__main__":
    main()
