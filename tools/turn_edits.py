#!/usr/bin/env python3
"""Brings the must-fail edits and the wrong definitions to the spelling of the sources that they edit.

usage: tools/turn_edits.py      at the top of the repository, once, after tools/snake_names.py

Only an edit's text that no longer stands in its file is turned, the new text beside it alike: a projection is written tight, names are in snake
case (a lemma beside a definition of the same name is not named by any edit), a prime is an apostrophe and an operator's hole a dotted circle.
"""

import glob
import re

TIGHT = re.compile(r"\((\w+['′]?) (\.\w+)\)")
SPACED = re.compile(r"(?<=[\w'′)]) (\.[a-z]\w*)")
CAMEL = re.compile(r"(?<![\w.])([a-z]+(?:[A-Z][a-z0-9]*)+)(?!\w)")
FIELD = re.compile(r"(?<=\.)([a-z]+(?:[A-Z][a-z0-9]*)+)(?!\w)")
HOLE = re.compile(r"(?<![\w◌])_([^\w\s]+)_(?!\w)")
KEBAB = re.compile(r"(?<![\w-])[a-z]+(?:-[a-z0-9]+)+(?![\w-])")


def snake(m):
    return re.sub(r"[A-Z]", lambda it: "_" + it[0].lower(), m[0])


def turned(line):
    line = TIGHT.sub(r"\1\2", line)
    line = SPACED.sub(r"\1", line)
    line = CAMEL.sub(snake, line)
    line = FIELD.sub(snake, line)
    line = HOLE.sub(r"◌\1◌", line)
    line = KEBAB.sub(lambda m: m[0].replace("-", "_"), line)
    return line.replace("′", "'")


for path in sorted(glob.glob("crates/*/must-fail/*.edit") + glob.glob("crates/*/refused-by/*/*.edit")):
    top = "/".join(path.split("/")[:2])
    with open(path, encoding="utf-8") as f:
        lines = f.read().split("\n")
    text = None
    for i, line in enumerate(lines):
        if line.startswith("file: "):
            with open(f"{top}/{line[6:]}", encoding="utf-8") as f:
                text = f.read()
        elif line.startswith("old: ") and text.count(line[5:]) != 1 and i + 1 < len(lines):
            old, new = turned(line[5:]), turned(lines[i + 1][5:])
            if text.count(old) == 1:
                lines[i], lines[i + 1] = "old: " + old, "new: " + new
            else:
                print(f"left: {path}: {line[5:]}")
    with open(path, "w", encoding="utf-8") as f:
        f.write("\n".join(lines))
