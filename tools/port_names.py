#!/usr/bin/env python3
"""Brings the names of definitions and lemmas to one spelling: words in snake case, types in camel case, a dash between the parts of a lemma's name.

usage: python3 tools/port_names.py        at the top, once, on what port.py of the toolchain leaves; tools/port_names.tsv has the names

It changes specs/, proofs/, clauses, edits and the pages that cite a name; functions, fields and parameters of src/, C names and strings keep theirs.
"""
import os
import re

HERE = os.path.dirname(os.path.realpath(__file__))
TOP = os.path.dirname(HERE)
WORD = re.compile(r"(?<![\w'-])[A-Za-z_][A-Za-z0-9_'≢≡₀-₉]*(?:-[A-Za-z0-9_'≢≡₀-₉]+)*")
CLAUSE = re.compile(r"^\s*(ghost use|ghost|requires|ensures)\b")


def table():
    everywhere, lemmas, of_crate = {}, {}, {}
    with open(os.path.join(HERE, "port_names.tsv"), encoding="utf-8") as rows:
        for row in rows:
            if row.startswith("#") or not row.strip():
                continue
            old, new, where = row.split()
            if where == "*":
                everywhere[old] = new
            elif where == "lemma":
                lemmas[old] = new
            else:
                of_crate.setdefault(where, {})[old] = new
    return everywhere, lemmas, of_crate


def files():
    for folder, dirs, names in os.walk(TOP):
        dirs[:] = sorted(d for d in dirs if d not in ("out", "target", ".git", "tools", "reference", "compare"))
        for name in sorted(names):
            if name.endswith((".antt", ".rt", ".edit", ".md", ".sh", ".py")):
                yield os.path.join(folder, name)


def turned(text, names, bare, is_code):
    """names stand anywhere; bare only where no dot stands before and the text is code."""
    out = []
    for line in text.split("\n"):
        at = line.find("--")
        code = line if at < 0 else line[:at]

        def one(found):
            word = found[0]
            if word in names:
                return names[word]
            inside = found.start() < len(code) and line[found.start() - 1 : found.start()] != "."
            if is_code(line) and inside and word in bare:
                return bare[word]
            return word

        out.append(WORD.sub(one, line))
    return "\n".join(out)


def main():
    everywhere, lemmas, of_crate = table()
    # a definition's own name within a lemma's, as in 'each-setAll'
    for path in files():
        parts = os.path.relpath(path, TOP).split(os.sep)
        crate = parts[1] if parts[0] == "crates" else ""
        bare = dict(of_crate.get(crate, {}))
        is_proof = path.endswith(".antt")
        if is_proof:
            bare.update(lemmas)
        is_code = (lambda line: True) if is_proof else (lambda line: bool(CLAUSE.match(line)) and path.endswith(".rt"))
        with open(path, encoding="utf-8", newline="") as f:
            text = f.read()
        new = turned(text, everywhere, bare, is_code)
        if new != text:
            with open(path, "w", encoding="utf-8", newline="") as f:
                f.write(new)


if __name__ == "__main__":
    main()
