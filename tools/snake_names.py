#!/usr/bin/env python3
"""Brings the repository's own definitions and lemmas to snake case, as today's Rattle spells words.

usage: tools/snake_names.py [--list]      at the top of the repository, once, after the kit's port.py

What turns: each name that a file of crates/*/specs or of crates/*/proofs (but no proof of one function) declares and that is written in camel
case or with dashes: definitions, lemmas, fields of records, constructors and names of a `where`; `lineOf` and `line-of` become `line_of`. A lemma
that would have its definition's name gets `_lem`. A module that a file calls `frame-case` becomes `FrameCase`. What stays: names of types and
modules, names that the library declares and this repository does not, and what Rattle makes itself for the proof of a function (the names behind
`tie.` and those of its steps). In .rt files only words outside comments and strings turn: no name of the code itself has camel case or a dash.
--list prints the table and writes nothing. Names that would fall together in a file are printed, and nothing is written.
"""

import collections
import os
import re
import sys

WORD = re.compile(r'[^\s(){}.;,@"«»`]+')
QUIET = re.compile(r'"(?:[^"\\\n]|\\.)*"|(?<![^\s(){}.;,@"«»])--[^\n]*', re.S)
RUST_QUIET = re.compile(r'"(?:[^"\\]|\\.)*"|//[^\n]*', re.S)
SPAN = re.compile(r"`[^`\n]+`")
DECLARED = re.compile(
    r'(?m)^ *(?:(?:abbrev|unfoldable|pub|private|opaque) +)*([^\s(){}.;,@"«»]+)(?: \{[^{}\n]*\}| \([^()\n]*\))* :(?![^\s])'
)
# Local names, which no declaration has.
LOCAL = "cutTree firstLine from-two model-lines not-x not-y true-r".split()
# Lemmas that port.py spelled like their definition will be.
ALONE = {
    "crates/frame/proofs/LoneLaws.antt": {"end_by": "end_by_lem"},
    "crates/frame/proofs/RoundTrip.antt": {"frame_back": "frame_back_lem"},
}
PROOF = re.compile(r"/proofs/.*/(Proof|Answers|Invariants)\.antt$")


def is_turned(word):
    return word[:1].islower() and ("-" in word or re.search(r"[a-z0-9][A-Z]", word))


def in_snake_case(word):
    return re.sub(r"(?<=[a-z0-9])[A-Z]|(?<=[A-Z])[A-Z](?=[a-z])", lambda m: "_" + m[0].lower(), word).replace("-", "_")


def files(top, *endings):
    for folder, dirs, names in os.walk(top):
        dirs[:] = sorted(d for d in dirs if d != "out" or "/proofs" in folder)
        for name in sorted(names):
            if name.endswith(endings):
                path = os.path.join(folder, name)
                with open(path, encoding="utf-8") as f:
                    yield path, f.read()


def table(top):
    """The names that turn, with their new spelling."""
    found = set(LOCAL)
    for path, text in files(top, ".antt"):
        if PROOF.search(path):
            continue
        code = QUIET.sub(" ", text)
        found.update(it for it in DECLARED.findall(code) if is_turned(it))
    taken = {in_snake_case(it) for it in found if "-" not in it}
    for path, text in files(top, ".antt"):
        if not PROOF.search(path):
            taken.update(DECLARED.findall(QUIET.sub(" ", text)))
    spelled = {it: in_snake_case(it) for it in sorted(found)}
    # a module's other name is a module's: camel case
    aliases = {it for _, text in files(top, ".antt") for it in re.findall(r"(?m)^ *use \S+ as (\S+-\S+)$", text)} - found
    modules = {it: "".join(part[:1].upper() + part[1:] for part in it.split("-")) for it in sorted(aliases)}
    return modules | {it: new + "_lem" if "-" in it and new in taken else new for it, new in spelled.items()}


def made_names(code):
    """The names behind `tie.` of one function's proof, with and without what Rattle puts before them, and the goals that the file answers."""
    goals = set(re.findall(r'(?m)^ *(?:abbrev +)?([^\s(){}.;,@"«»]+) : tie\.', code))
    return goals | {re.sub(r"^(Need|After|At|In)-", "", it) for it in re.findall(r"tie\.([^\s(){}.;,]+)", code)}


def names_in(path, code, names):
    """The table for one file: what it takes from the library stays."""
    crates = set(os.listdir("crates"))
    theirs = set()
    for steps, items in re.findall(r"\buse ([^\s;{]+?)\.?\{([^}]*)\}", code):
        if not (steps.startswith("Rattle.") and steps.split(".")[1] in crates):
            theirs.update(WORD.findall(items))
    return {**{it: new for it, new in names.items() if it not in theirs}, **ALONE.get(path, {})}


def turned(path, text, names):
    names = names_in(path, text, names)
    if path.endswith(".rt"):
        quiet, kept = RUST_QUIET, set()
    else:
        quiet, kept = QUIET, made_names(text) if PROOF.search(path) else set()
    steps = PROOF.search(path)

    def word(m, code):
        it = m[0]
        if it not in names or it in kept:
            return it
        # a step's name that Rattle made
        if steps and code[m.start() - 1 : m.start()] == "." and it not in FIELDS:
            return it
        return names[it]

    def words(code):
        return WORD.sub(lambda m: word(m, code), code)

    out, at = [], 0
    for m in quiet.finditer(text):
        out += [words(text[at : m.start()]), SPAN.sub(lambda s: words(s[0]), m[0]) if m[0][:1] != '"' else m[0]]
        at = m.end()
    return "".join(out) + words(text[at:])


def clashes(path, text, names):
    """New spellings that the file has already, or would have of two names."""
    names = names_in(path, text, names)
    code = (RUST_QUIET if path.endswith(".rt") else QUIET).sub(" ", text)
    found = set(WORD.findall(code))
    into = collections.defaultdict(set)
    for it in found:
        into[names.get(it, it)].add(it)
    return sorted((new, sorted(olds)) for new, olds in into.items() if len(olds) > 1)


FIELDS = set()


def main():
    top = "crates"
    names = table(top)
    for path, text in files(top, ".antt"):
        if not PROOF.search(path):
            code = QUIET.sub(" ", text)
            FIELDS.update(re.findall(r"(?m)^ +pub (\S+)(?: \S+)* :", code))
            FIELDS.update(it for it in re.findall(r"(?m)^ +(\S+) :", code))
    if "--list" in sys.argv:
        for old, new in names.items():
            print(f"{old}\t{new}")
        return
    # In .rt files a function may have the name of the definition that its contract cites; and the files of one function's proof are made anew.
    met = [(path, it) for path, text in files(top, ".antt") if not PROOF.search(path) for it in clashes(path, text, names)]
    if met:
        for path, it in met:
            print(f"{path}: {it[0]}: {', '.join(it[1])}")
        raise SystemExit(1)
    for path, text in list(files(top, ".antt", ".rt")):
        new = turned(path, text, names)
        if new != text:
            with open(path, "w", encoding="utf-8") as f:
                f.write(new)


main()
