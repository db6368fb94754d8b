"""The lines that docs/OFFICE.md has under a heading, as they stand there."""

import pathlib

OFFICE = pathlib.Path(__file__).resolve().parents[2] / "docs" / "OFFICE.md"


def lines(heading):
    found, inside = [], False
    for line in OFFICE.read_text().splitlines():
        if line.startswith("#"):
            inside = line.lstrip("# ") == heading
        elif inside and line.startswith("    "):
            found.append(line[4:])
    if not found:
        raise ValueError(f"OFFICE.md has no lines under {heading}")
    return "\n".join(found) + "\n"
