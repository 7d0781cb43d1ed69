#!/usr/bin/env python3
"""Writes the crates of which the archives for C are made, from the libraries whose calls they hand on: crates/NAME_c/src/lib.rt, for each NAME
below. A crate is a library or an archive, not both, so NAME is the library, and NAME_c has a function for each that NAME has under
a C name, with its arguments and its clauses word for word, that calls it. To be run again, and `rt fmt` behind it in crates/NAME_c, when
a clause of theirs changes. With --lines it prints their lines of crates.txt instead.

usage: tools/archive_crates.py [--lines]
"""
import os
import re
import sys

TOP = os.path.dirname(os.path.dirname(os.path.abspath(__file__)))
# what each archive holds, in the order in which the host's package names them
HEADS = {
    "exports": "numbers and verdicts",
    "exports_questions": "questions and copies",
    "exports_files": "judging files",
    "exports_file_copies": "the entries of a file, and copies of files",
    "exports_reasons": "why an entry or a file is refused",
    "exports_index": "the index",
    "exports_walk": "values in order",
    "exports_doubles": "values as doubles",
    "exports_reals": "number fields and decimals in hand as doubles",
    "exports_cinda": "lines in the CINDA2001 layout",
    "exports_decay": "codes under DECAY-DATA",
    "exports_codes": "the question for a code under DECAY-DATA",
    "exports_revisions": "a held entry and its revision",
}
EXPORT = re.compile(
    r"((?:^//.*\n)*)#\[unsafe\(no_mangle\)\]\npub extern \"C\" fn (\w+)\(([^()]*)\)( -> \w+)?\n((?:.*\n)*?)\{\n", re.M
)


def text(path):
    with open(f"{TOP}/{path}", encoding="utf-8") as it:
        return it.read()


def archive_of(name):
    """Returns the text of the archive's crate, and the crates that its clauses name."""
    imports, functions = {}, []
    for module in re.findall(r"^pub mod (\w+);", text(f"crates/{name}/src/lib.rt"), re.M):
        source = text(f"crates/{name}/src/{module}.rt")
        found = EXPORT.findall(source)
        if len(found) != source.count("no_mangle"):
            sys.exit(f"crates/{name}/src/{module}.rt: a function under a C name was not read")
        for path, words in re.findall(r"^ghost use ([\w.]+)\.\{([^}]*)\};", source, re.M):
            known = imports.setdefault(path, [])
            known += [it for it in map(str.strip, words.split(",")) if it and it not in known]
        for comment, function, parameters, answer, clauses in found:
            arguments = ", ".join(re.findall(r"(\w+)\s*:", parameters))
            functions.append(
                f'{comment}#[unsafe(no_mangle)]\npub extern "C" fn {function}({parameters}){answer}\n{clauses}'
                f"{{\n    {name}::{module}::{function}({arguments})\n}}\n"
            )
    words = [it for path in imports for it in imports[path]]
    if len(words) != len(set(words)):
        sys.exit(f"crates/{name}: two files bring in different things under one name")
    clauses = "".join(functions)
    uses = "".join(f"ghost use {path}.{{{', '.join(imports[path])}}};\n" for path in imports)
    head = f"// The archive of `{name}` for C: {HEADS[name]}. Each function has the name, the arguments and\n// the promise of one there, and calls it.\n"
    return f"{head}\n#![tactic(auto)]\n\n{uses}\n" + "\n".join(functions), {it.split(".")[1] for it in imports} - {"std"}, clauses


def main():
    listed = text("crates.txt")
    for name in HEADS:
        whole, named, clauses = archive_of(name)
        if "record { 0 = line }" in clauses:
            # the type of a line's number
            named.add("paper_cinda" if name == "exports_cinda" else "paper_record")
        below = re.search(rf"^{name}: (.*)$", listed, re.M)[1].split()
        if named - {*below}:
            sys.exit(f"crates.txt: {name} does not list {' '.join(sorted(named - {*below}))}")
        if sys.argv[1:] == ["--lines"]:
            print(f"{name}_c staticlib: {' '.join([name, *[it for it in below if it in named]])}")
            continue
        os.makedirs(f"{TOP}/crates/{name}_c/src", exist_ok=True)
        with open(f"{TOP}/crates/{name}_c/src/lib.rt", "w", encoding="utf-8") as it:
            it.write(whole)


if __name__ == "__main__":
    main()
