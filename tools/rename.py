#!/usr/bin/env python3
"""Brings definitions, lemmas, fields and constructors of this repository to snake case, by the table tools/names.tsv (old name, new name).

usage: tools/rename.py [FOLDER]      the checkout, by default this one; run once, behind the kit's port.py

It writes crates/*/specs, crates/*/proofs, the clauses and `ghost use` lines of crates/*/src, the edits of definitions in crates/*/must-fail, and what
stands between backticks in README.md and docs/. Code of src/, strings, inputs and outputs keep their names.
"""

import glob
import os
import re
import sys

HERE = os.path.dirname(os.path.realpath(__file__))
TOKEN = re.compile(r"[^\s(){}.,;:«»\[\]`|]+")
# names that fall together with another of the same file or kind: only there
ONLY = {
    "crates/pps/proofs/Reach.antt": {"past_end": "past_end_lem"},
    "crates/bits/proofs/Storing.antt": {"stored_more": "stored_more_lem"},
    "crates/bits/proofs/BitWriter/put_zeros/Proof.antt": {"stored_more": "stored_more_lem"},
    "crates/bits/proofs/BitWriter/put_ue/Proof.antt": {"stored_more": "stored_more_lem"},
}


def table():
    with open(os.path.join(HERE, "names.tsv"), encoding="utf-8") as f:
        return dict(line.rstrip("\n").split("\t") for line in f)


def turn(text, names):
    return TOKEN.sub(lambda m: names.get(m[0], m[0]), text)


def clauses(text, names):
    """A .rt file: its `ghost use` items and the braces of its clauses alone."""
    out, i = [], 0
    for m in re.finditer(r"ghost use [^;]*;|\b(?:requires|ensures)\b[^{;]*\{", text):
        if m.start() < i:
            continue
        end = m.end()
        if not m[0].startswith("ghost"):
            deep = 1
            while deep:
                deep += {"{": 1, "}": -1}.get(text[end], 0)
                end += 1
        out += [text[i : m.start()], turn(text[m.start() : end], names)]
        i = end
    return "".join(out) + text[i:]


def main(top):
    os.chdir(top)
    names = table()
    turned = 0
    for path in sorted(glob.glob("crates/*/**/*.*", recursive=True) + glob.glob("docs/*.md") + ["README.md"]):
        if "/out/" in path or not path.endswith((".antt", ".rt", ".edit", ".md")):
            continue
        with open(path, encoding="utf-8") as f:
            old = f.read()
        if path.endswith(".antt"):
            new = turn(old, names | ONLY.get(path, {}))
        elif path.endswith(".rt"):
            new = clauses(old, names)
        elif path.endswith(".edit"):
            new = turn(old, names) if re.search(r"^file: .*antt$", old, re.M) else old
        else:
            new = re.sub(r"`[^`\n]+`", lambda m: turn(m[0], names), old)
        if new != old:
            turned += 1
            with open(path, "w", encoding="utf-8") as f:
                f.write(new)
    print(f"rename: {len(names)} names, {turned} files turned")


if __name__ == "__main__":
    main(sys.argv[1] if len(sys.argv) > 1 else os.path.dirname(HERE))
