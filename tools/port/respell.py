#!/usr/bin/env python3
"""After port.py: gives the repository's other definitions and lemmas the spelling that today's Rattle asks for.

usage: tools/port/respell.py FOLDER     (the folder that has crates/; run once, on what port.py left)

Words are in snake case: a name of specs/ or proofs/ in lower camel case, as byteOf, becomes byte_of, and so does each part of a lemma's name between dashes, as
byteOf-lt. Types and modules keep their capitals. Functions of src/, C names and strings have no such names. Must-fail edits and pages are respelled alike, and
the edits get port.py's own words where they stand in antt.
"""

import os
import re
import sys

TOP = sys.argv[1]
# Two names that would fall together in a file: the law gets _lem, as today's house has it for a law with its function's name.
LAWS = {
    "lines/proofs/SaidLaws.antt": ["address_word"],
    "lines/proofs/Leads.antt": ["byte_word"],
    "bits/proofs/FlipLaws.antt": ["by_digits"],
    "bits/proofs/flips/flip_quarters/Proof.antt": ["by_digits"],
    "builders/proofs/Takes.antt": ["folded_on"],
    "fields/proofs/ItemLaws.antt": ["folded_on"],
    "text/proofs/OneForm.antt": ["made_bytes"],
    "library/proofs/LeftLaws.antt": ["read_left", "step_left", "sum_left"],
    "library/proofs/staran_read_content/Proof.antt": ["read_left"],
    "library/proofs/staran_step_5/Proof.antt": ["step_left"],
    "library/proofs/staran_sum_list/Proof.antt": ["sum_left"],
    "assembly/proofs/AnswerLaws.antt": ["too_short"],
    "assembly/proofs/assemble/Proof.antt": ["too_short"],
}
QUOTED = "put_item read_all lines_of item_of words_of two_at is_code reach_of put_word part_of set_m put_byte".split()
NAME = re.compile(r"[^\s(){}\[\];,.:|\"`/]+")
PART = re.compile(r"(-|«|»)")


def files(kinds, below="crates"):
    for folder, folders, names in os.walk(os.path.join(TOP, below)):
        folders[:] = sorted(f for f in folders if f not in ("out", ".git", "target"))
        for name in sorted(names):
            if name.endswith(kinds):
                yield os.path.join(folder, name)


def read(path):
    with open(path, encoding="utf-8") as f:
        return f.read()


def write(path, text):
    if text != read(path):
        with open(path, "w", encoding="utf-8") as f:
            f.write(text)


def snake(name):
    parts = PART.split(name)
    for i, part in enumerate(parts):
        if re.match(r"[a-z]", part) and re.search(r"[a-z0-9'][A-Z]", part):
            parts[i] = re.sub(r"[A-Z]", lambda m: "_" + m[0].lower(), part)
    return "".join(parts)


def main():
    for path, names in LAWS.items():
        path = os.path.join(TOP, "crates", path)
        text = read(path)
        for name in names:
            text = re.sub(rf"(?<![\w'◌-]){name}(?![\w'-])", name + "_lem", text)
        write(path, text)
    path = os.path.join(TOP, "crates/promises/specs/Uniqueness.antt")
    text = read(path)
    for name in QUOTED:
        text = text.replace(f"«{name}»", name)
    write(path, text)
    # Every name in lower camel case of the .antt files: all are the repository's own.
    found = set()
    for path in files(".antt"):
        for name in NAME.findall(read(path)):
            if snake(name) != name:
                found.add(name)
    renamed = {name: snake(name) for name in found}
    for path in files((".antt", ".rt", ".edit")):
        write(path, NAME.sub(lambda m: renamed.get(m[0], m[0]), read(path)))
    pages = [os.path.join(TOP, p) for p in ("README.md", "CONTRIBUTING.md")] + list(files(".md", "docs"))
    for path in pages:
        write(path, re.sub(r"`([^`\n]+)`", lambda m: "`" + NAME.sub(lambda n: renamed.get(n[0], n[0]), m[1]) + "`", read(path)))
    for path in files((".rt",)):
        if os.path.basename(path) in ("lib.rt", "main.rt") and "#![tactic(auto)]" not in read(path):
            text = read(path)
            head = re.match(r"(?:(?://[^\n]*)?\n)*", text)[0]
            write(path, head + "#![tactic(auto)]\n\n" + text[len(head) :])
    for old, new in sorted(renamed.items()):
        print(f"{old} {new}")


main()
