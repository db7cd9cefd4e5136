#!/usr/bin/env python3
"""Respells the repository's own definitions and lemmas: words in snake case, types in camel case.

Run once, at the top, after the kit's port.py. tools/respelled-names.txt has a line `old new` for each name. In .antt and
.rt files and must-fail edits each of these names is replaced where it stands as a whole name in code; in comments and
documents only between backticks. Strings are left alone, and so is a name that follows a dot after `c`, `g` or `l`,
which the kit makes from the source.
"""
import re
from pathlib import Path

TOOLS = Path(__file__).resolve().parent
TOP = TOOLS.parent
NEW = dict(line.split() for line in (TOOLS / "respelled-names.txt").read_text().splitlines())
NAME = re.compile(r"(?<![\w'-])[^\W\d][\w'₀-₉]*(?:-[\w'₀-₉]+)+")
TICKS = re.compile(r"`[^`\n]*`")


def in_code(text):
    return NAME.sub(lambda m: NEW.get(m[0], m[0]), text)


def in_words(text):
    return TICKS.sub(lambda m: in_code(m[0]), text)


def by_line(text, comment):
    """Each line's code, and behind a comment mark only what stands between backticks."""
    lines = []
    for line in text.split("\n"):
        parts = re.split(r'("(?:[^"\\]|\\.)*")', line)
        done, words = "", False
        for part in parts:
            if words:
                done += in_words(part)
            elif part.startswith('"'):
                done += part
            else:
                at = part.find(comment)
                words = at >= 0
                done += in_code(part[:at]) + in_words(part[at:]) if words else in_code(part)
        lines.append(done)
    return "\n".join(lines)


def main():
    files = [(path, "--") for path in TOP.glob("crates/*/specs/**/*.antt")]
    files += [(path, "--") for path in TOP.glob("crates/*/proofs/**/*.antt")]
    files += [(path, "//") for path in TOP.glob("crates/*/src/**/*.rt")]
    files += [(path, "//") for path in TOP.glob("crates/*/must-fail/*.edit")]
    for path, comment in files:
        old = path.read_text()
        new = by_line(old, comment)
        if new != old:
            path.write_text(new)
    for path in [TOP / "README.md", *TOP.glob("docs/*.md")]:
        if path.name.startswith("PORT"):
            continue
        old = path.read_text()
        new = in_words(old)
        if new != old:
            path.write_text(new)


if __name__ == "__main__":
    main()
