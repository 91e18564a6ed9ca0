#!/usr/bin/env python3
"""Writes docs/CRATES.md, the list of crates by section.

Sections and uses come from crates.txt; what a crate is, from the first sentence of its head. .ci/docs (docs/check.py) refuses a page that isn't what
this writes. Run it with python3 after a change of a head or of crates.txt.
"""

import pathlib
import re

TOP = pathlib.Path(__file__).resolve().parent.parent
# A sentence of more words is cut at its first colon, semicolon or comma that leaves so many.
LONG, LEAST = 18, 3
# Not at a comma of a list, nor in brackets.
CUT = re.compile(r"(?:[:;]|,(?! (?:a|and|of|the|what|\w+ and) ))\s(?![^(]*\))")


def head(path):
    """The lines of a file's head, without the mark of a comment."""
    lines = []
    for line in path.read_text("utf-8").splitlines():
        if not line.startswith("//!"):
            break
        lines.append(line[3:].strip())
    return lines


def sentence(words):
    """The first sentence of a text, without its full stop; if it is long, up to the first place for a cut that leaves enough words of it."""
    first = re.split(r"\.(?:\s|$)", " ".join(words.split()), maxsplit=1)[0]
    shorts = [first[:match.start()] for match in CUT.finditer(first)] if len(first.split()) > LONG else []
    return next((short for short in shorts if len(short.split()) >= LEAST), first)


def about(name):
    """What a crate is."""
    folder = TOP / "crates" / name / "src"
    path = folder / "lib.rt" if (folder / "lib.rt").exists() else folder / "main.rt"
    return sentence("\n".join(head(path)).partition("\n- ")[0])


def sections():
    """The sections of crates.txt: a name, what it has, and its crates in order; and of each crate those that it uses."""
    found, uses = [], {}
    for line in (TOP / "crates.txt").read_text("utf-8").splitlines():
        title = re.match(r"# (\w+): (.*)", line)
        entry = re.match(r"(\w+):(.*)", line)
        if title:
            found.append((title[1], title[2], []))
        elif entry:
            found[-1][2].append(entry[1])
            uses[entry[1]] = entry[2].split()
    return found, uses


def crates():
    """docs/CRATES.md."""
    found, _ = sections()
    lines = [
        "# Crates",
        "",
        "`docs/lists.py` writes this page from `crates.txt` and from the heads of crates: change those. The section is the first word of a name.",
    ]
    for section, what, names in found:
        lines += ["", f"## {section}: {what}", ""]
        for name in names:
            lines.append(f"- **`{name}`**: {about(name)}.")
    return "\n".join(lines) + "\n"


PAGES = {"docs/CRATES.md": crates}

if __name__ == "__main__":
    for page, made in PAGES.items():
        (TOP / page).write_text(made(), "utf-8")
