#!/usr/bin/env python3
"""Brings the repository's own definitions, fields, constructors and lemmas to snake case, as tools/spelling.tsv lists them:
in .antt and .rt files, in must-fail edits, and between backticks of pages. Run once, behind the kit's script for older
repositories. Names of functions, files, exported names, strings, inputs and outputs stay.

usage: python3 tools/spell.py [FOLDER]     the repository's top, if not this one
"""
import os
import re
import sys

TOP = sys.argv[1] if len(sys.argv) > 1 else os.path.join(os.path.dirname(os.path.abspath(__file__)), "..")
HERE = os.path.dirname(os.path.abspath(__file__))
WORD = re.compile(r"[A-Za-z_\u0370-\u03ff\u2080-\u209c\u2115][A-Za-z0-9_\u0370-\u03ff\u2080-\u209c\u2115'-]*")
# lemmas that would have the name of a word which their file cites
LEMMAS = {
    "rows_behind": ["index_walk/proofs/RowsLoop.antt"],
    "left_in": ["rules_plain/proofs/Repeated.antt"],
    "place_at": ["decay_states/proofs/Places.antt"],
    "is_digit": ["paper_record/proofs/CodeExactly.antt", "paper_decay/proofs/Heads.antt"],
    "text_at": ["row_passages/proofs/TextsHeld.antt", "inside/proofs/PassageAsked.antt", "inside/proofs/PassageAnswered.antt"],
    "raised_by": ["paper_canonical/proofs/First.antt"],
    "field_in": ["row_answers/proofs/PlainReads.antt"],
    "in_entry": ["row_answers/proofs/ReadFields.antt", "row_answers/proofs/ReadRecords.antt", "row_answers/proofs/RowReads.antt", "row_answers/proofs/FirstRecord.antt", "walk_laws/proofs/Walked.antt"],
    "code_by": ["paper_decay/proofs/OneRun.antt"],
    "all_types": ["paper_decay/proofs/Filling.antt"],
    "first_byte": ["inside/proofs/PassageAnswered.antt"],
    "numbers_after": ["exports_back/proofs/WalkBack.antt"],
    "one_more": ["paper_decay_fields/proofs/Heads.antt"],
    "head_in": ["paper_decay_fields/proofs/Heads.antt", "paper_decay_fields/proofs/Codes.antt"],
}


def names():
    with open(os.path.join(HERE, "spelling.tsv"), encoding="utf-8") as f:
        return dict(line.rstrip("\n").split("\t") for line in f if line.strip())


def turn(text, table, only_camel=False):
    return WORD.sub(lambda m: m.group() if only_camel and not re.search("[A-Z]", m.group()) else table.get(m.group(), m.group()), text)


def antt(text, table):
    lines = []
    for line in text.split("\n"):
        at = line.find("--")
        at = len(line) if at < 0 else at
        lines.append(turn(line[:at], table) + turn(line[at:], table, only_camel=True))
    return "\n".join(lines)


def rust(text, table):
    parts = re.split(r"(//[^\n]*|b?\"(?:\\.|[^\"\\])*\"|b?'(?:\\.|[^'\\])')", text)
    return "".join(turn(p, table) if i % 2 == 0 else turn(p, table, only_camel=True) if p.startswith("//") else p for i, p in enumerate(parts))


def edit(text, table):
    code = re.search(r"(?m)^file:.*\.(\w+)\s*$", text)
    say = rust if code and code.group(1) == "rt" else antt
    return "\n".join(line[:5] + say(line[5:], table) if line[:5] in ("old: ", "new: ") else turn(line, table, only_camel=True) for line in text.split("\n"))


def page(text, table):
    return re.sub(r"`[^`\n]+`", lambda m: turn(m.group(), table), text)


def write(path, say):
    with open(path, encoding="utf-8") as f:
        old = f.read()
    new = say(old)
    if new != old:
        with open(path, "w", encoding="utf-8") as f:
            f.write(new)
        return 1
    return 0


def main():
    table = names()
    count = 0
    for folder, dirs, files in os.walk(os.path.join(TOP, "crates")):
        dirs[:] = [d for d in dirs if d != "out"]
        for name in files:
            path = os.path.join(folder, name)
            inside = os.path.relpath(path, os.path.join(TOP, "crates"))
            own = {w: w + "_lem" for w, where in LEMMAS.items() if inside in where}
            if name.endswith(".antt"):
                count += write(path, lambda t: antt(t, {**table, **own}))
            elif name.endswith(".rt"):
                count += write(path, lambda t: rust(t, table))
            elif name.endswith(".edit"):
                count += write(path, lambda t: edit(t, table))
    pages = [os.path.join(TOP, "README.md"), os.path.join(TOP, "host", "README.md")]
    for folder, dirs, files in os.walk(os.path.join(TOP, "docs")):
        pages += [os.path.join(folder, f) for f in files if f.endswith(".md") and not f.startswith(("PORT", "DESIGN-PASS"))]
    for path in pages:
        count += write(path, lambda t: page(t, table))
    print(f"spell: {count} files turned")


main()
