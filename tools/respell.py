#!/usr/bin/env python3
"""Brings the repository's own definitions and lemmas to the spelling of today's Rattle: words in snake case, without a dash.

usage: python3 tools/respell.py        at the top of the repository, once

The table tools/respelled.txt has a line for each name: the old one and the new one. Names of code, strings, inputs and outputs
stay. A name in camel case is turned wherever it stands as a word, also in comments; one with a dash, which may be two English
words, there only in backticks. In a document both are turned in backticks and in code.
"""

import os
import re

WORD = re.compile(r"[^\W\d][\w'₀-₉]*(?:-[\w'₀-₉]+)*")
TAIL = re.compile(r"(?:'s|['₀-₉])*$")
TICKS = re.compile(r"`[^`\n]+`")
# Strings, characters and comments of code, whichever begins first.
SOURCE = re.compile(r"""(?P<kept>b?"(?:\\.|[^"\\])*"|b?'(?:\\.|[^'\\])')|(?P<comment>//[^\n]*)""", re.S)
ANTT = re.compile(r"""(?P<kept>"(?:\\.|[^"\\])*")|(?P<comment>--[^\n]*)""", re.S)
# docs/PORT.md has names as they were.
LEFT_ALONE = {"docs/PORT.md"}


def table():
    with open("tools/respelled.txt", encoding="utf-8") as file:
        return dict(line.split() for line in file)


def turned(text, names):
    """The text with each whole word that is a name, or a name with primes, an index or 's behind it, turned.

    A name with a dash between two dots is Rattle's own, of a call: `c.block-sent.ensures`.
    """

    def word(match):
        name = match[0]
        if "-" in name and match.start() and text[match.start() - 1] == "." and text.startswith(".", match.end()):
            return name
        if name in names:
            return names[name]
        tail = TAIL.search(name)[0]
        stem = name[: len(name) - len(tail)]
        return names.get(stem, stem) + tail

    return WORD.sub(word, text)


def ticked(text, names):
    return TICKS.sub(lambda match: turned(match[0], names), text)


def code(text, kind, names, camel):
    """Code: strings stay; of comments see above."""
    parts, at = [], 0
    for match in kind.finditer(text):
        parts.append(turned(text[at : match.start()], names))
        parts.append(match["kept"] or ticked(turned(match["comment"], camel), names))
        at = match.end()
    return "".join(parts) + turned(text[at:], names)


def edit(text, names, camel):
    """A must-fail edit: comments, and lines of old and of new code."""
    lines = []
    for line in text.split("\n"):
        is_code = line.startswith(("old:", "new:"))
        lines.append(code(line, SOURCE, names, camel) if is_code else ticked(turned(line, camel), names))
    return "\n".join(lines)


def page(text, names):
    """A document: names in backticks, and in fenced or indented code."""
    lines, fenced = [], False
    for line in text.split("\n"):
        fenced ^= line.startswith("```")
        lines.append(turned(line, names) if fenced or line.startswith("    ") else ticked(line, names))
    return "\n".join(lines)


def files():
    for folder, below, names in os.walk("."):
        below[:] = sorted(d for d in below if d not in ("out", "target", ".git", "tools"))
        for name in sorted(names):
            yield os.path.relpath(os.path.join(folder, name), ".")


def main():
    names = table()
    camel = {old: new for old, new in names.items() if "-" not in old}
    turns = {
        ".antt": lambda text: code(text, ANTT, names, camel),
        ".rt": lambda text: code(text, SOURCE, names, camel),
        ".edit": lambda text: edit(text, names, camel),
        ".md": lambda text: page(text, names),
    }
    count = 0
    for path in files():
        turn = turns.get(os.path.splitext(path)[1])
        if turn is None or path in LEFT_ALONE:
            continue
        with open(path, encoding="utf-8") as file:
            old = file.read()
        new = turn(old)
        if new != old:
            with open(path, "w", encoding="utf-8") as file:
                file.write(new)
            count += 1
    print(f"respell: {len(names)} names, {count} files changed")


if __name__ == "__main__":
    main()
