#!/usr/bin/env python3
"""Brings the names of definitions and theorems between backticks of the pages to what docs/PORT-NAMES.tsv says they are now.
Run once, behind tools/spell.py. A name with more than one new form is left to a reader.

usage: python3 tools/spell_pages.py
"""
import os
import re

TOP = os.path.join(os.path.dirname(os.path.abspath(__file__)), "..")
OWN = {"numbers-after": "numbers_after_lem", "in-entry": "in_entry", "no-place": "no_place", "first-alone": "first_alone"}


def main():
    forms, there = {}, set()
    with open(os.path.join(TOP, "docs", "PORT-NAMES.tsv"), encoding="utf-8") as f:
        for line in f:
            _, old, new = line.rstrip("\n").split("\t")
            forms.setdefault(old, set()).add(new)
    for folder, dirs, files in os.walk(os.path.join(TOP, "crates")):
        dirs[:] = [d for d in dirs if d != "out"]
        for name in files:
            if name.endswith((".antt", ".rt")):
                with open(os.path.join(folder, name), encoding="utf-8") as f:
                    there.update(re.findall(r"[A-Za-z_][\w'-]*", re.sub(r"(--|//).*", "", f.read())))
    table = {old: next(iter(new)) for old, new in forms.items() if len(new) == 1 and old not in there}
    table.update({old: new for old, new in OWN.items() if new in there and old not in there})
    word = re.compile(r"[A-Za-z_][\w'-]*")
    pages = [os.path.join(TOP, "README.md"), os.path.join(TOP, "host", "README.md")]
    for folder, _, files in os.walk(os.path.join(TOP, "docs")):
        pages += [os.path.join(folder, f) for f in files if f.endswith(".md") and not f.startswith("PORT")]
    turned = 0
    for path in pages:
        with open(path, encoding="utf-8") as f:
            text = f.read()
        new = re.sub(r"`[^`\n]+`", lambda m: word.sub(lambda w: table.get(w.group(), w.group()), m.group()), text)
        if new != text:
            turned += 1
            with open(path, "w", encoding="utf-8") as f:
                f.write(new)
    print(f"spell_pages: {turned} pages turned")


main()
