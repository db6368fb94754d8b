#!/usr/bin/env python3
"""Counts the candidate places of each point of docs/DESIGN-PASS.md in crates/*/src, and lists them with -v.

usage: tools/design_counts.py [-v] [TREE]
"""
import collections
import glob
import os
import re
import sys

NO_VALUE = r"(Refused|Faulty|None|Nothing|Nobody|Wrong|Unknown|NoNumber|NotWhole|Outside|Sides|Longer|NoReport|TooLarge|Uncounted)\b"
KEYWORDS = set("if else return let mut while for in match as true false fn pub usize u64 i64 u8 u16 i16 bool".split())
BY_HAND = {
    "cast": r"^\w+ as \w+$|^\([\w %/+]+\) as u8$",
    "a bool as 0 or 1": r"^if [^{]+\{ 1 \} else \{ 0 \}$",
    "min, max, saturating": r"^if (\w+) (<|<=|>|>=) (\w+) \{ (\w+( - \w+)?|0) \} else \{ ?[^}]*\}$",
    "the size of a number": r"^if (\w+) < 0 \{ .*as usize.*\} else \{ \1 as usize \}$",
    "compared to one value": r"^!?\w+(\.\w+)? == \w+$",
    "a case's number": r"match \w+ \{( \w+::\w+(\([\w, ]*\))? => \d+,?)+",
    "a refusal wrapped": r"match \w+ \{ (\w+::)?\w+(\(\(\)\))? => (\w+::)?\w+(\(\(\)\))?, (\w+::)?(Refused|Err)\(r\) => (\w+::)?(Refused|Err)\(.*r\)*, \}$",
    "test by test": r"^(if !?[^{}]+ \{ return (true|false); \} ){2,}!?[^{}]+$",
}


def functions(text):
    """(line, name, signature with contract, body) of each function."""
    lines = text.split("\n")
    for i, line in enumerate(lines):
        m = re.match(r"( *)(pub )?fn (\w+)", line)
        if not m:
            continue
        j = i
        while j < len(lines) and not (lines[j] == m[1] + "{" or re.search(r"\) *(-> [^{]*)?\{(\})?$", lines[j]) or lines[j].strip() == "{}" or lines[j].endswith(";")):
            j += 1
        k = j
        while k < len(lines) and lines[k] != m[1] + "}" and not lines[j].endswith(("{}", ";")):
            k += 1
        yield i + 1, m[3], "\n".join(lines[i : j + 1]), [x.split("//")[0] for x in lines[j + 1 : k]]


def shape(body):
    names = {}
    words = re.findall(r'b?"(?:[^"\\]|\\.)*"|\w+|[^\w\s]', " ".join(body))
    out = []
    for w in words:
        if w in KEYWORDS:
            out.append(w)
        elif re.match(r'\d|b?"', w):
            out.append("0")
        elif re.match(r"[A-Za-z_]", w):
            out.append(names.setdefault(w, "v%d" % len(names)))
        else:
            out.append(w)
    return " ".join(out) if len(words) >= 9 else None


def main():
    args = [a for a in sys.argv[1:] if a != "-v"]
    verbose = "-v" in sys.argv
    os.chdir(args[0] if args else ".")
    found = collections.OrderedDict((k, []) for k in (
        "1. enums with a case for no value", "1. structs with a flag beside values",
        "2. functions alike in shape", "3. loops that count an index", "4. conversions by hand",
        "5. functions of eight parameters and more", "6. strides worked out", "7. functions that take a switch"))
    alike = collections.defaultdict(list)
    for path in sorted(glob.glob("crates/*/src/**/*.rt", recursive=True)):
        text = open(path).read()
        at = path[len("crates/"):]
        for m in re.finditer(r"(?m)^(?:pub )?enum (\w+) \{\n((?:    .*\n)*)\}", text):
            if re.search(r"(?m)^    " + NO_VALUE, m[2]):
                found["1. enums with a case for no value"].append(at + " " + m[1])
        for m in re.finditer(r"(?m)^(?:pub )?struct (\w+)(?:<[^>]*>)? \{\n((?:    .*\n)*)\}", text):
            fields = re.findall(r"(?m)^    (?:pub )?\w+: (.*),$", m[2])
            if "bool" in fields and len(fields) > 1:
                found["1. structs with a flag beside values"].append(at + " " + m[1])
        for line, name, head, body in functions(text):
            place = "%s:%d %s" % (at, line, name)
            s = shape(body)
            if s:
                alike[s].append(place)
            whole = re.sub(r"\s+", " ", " ".join(body)).strip()
            for kind, pattern in BY_HAND.items():
                if re.search(pattern, whole):
                    found["4. conversions by hand"].append(place + ": " + kind)
            for m in re.finditer(r"while ([^{]*)\{((?:[^{}]|\{[^{}]*\})*)\}", "\n".join(body)):
                counters = re.findall(r"(\w+) (?:\+|-)= 1;", m[2])
                if any(re.search(r"\b%s\b" % c, m[1]) for c in counters):
                    found["3. loops that count an index"].append(place)
            parameters = re.sub(r"^( *(?:pub )?fn \w+)<[^(]*>\(", r"\1(", re.split(r"\n *(?:requires|ensures)", head)[0])
            if len(re.findall(r"\w+: ", parameters)) >= 8:
                found["5. functions of eight parameters and more"].append(place)
            if re.search(r"\b(engine: Engine|\w+: bool)\b", parameters):
                found["7. functions that take a switch"].append(place)
        for n, line in enumerate(text.split("\n"), 1):
            if re.search(r"\b(at|i|k) = [234] \* ", line):
                found["6. strides worked out"].append("%s:%d" % (at, n))
    for group in alike.values():
        if len(group) > 1:
            found["2. functions alike in shape"] += [" = ".join(group)] + [""] * (len(group) - 1)
    for point, places in found.items():
        groups = [p for p in places if p]
        extra = " in %d groups" % len(groups) if len(groups) != len(places) else ""
        print("%-45s %4d%s" % (point, len(places), extra))
        if verbose:
            for p in groups:
                print("    " + p)


main()
