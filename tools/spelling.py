#!/usr/bin/env python3
"""Brings this repository's own definitions and lemmas to today's spelling: words in snake case, types and modules in camel case.

usage: python3 tools/spelling.py        at the top of the repository, once, right after /opt/rattle/port/port.py

tools/spelling.txt lists the old names and the new ones. A dash stays where it joins the names of two definitions, as in `length-drop`. A lemma that would have
the name of a definition gets `_lem`. Functions of src/, exported names and strings keep their names. In comments only names in backticks and names with a capital
inside are turned, since `out-link` is also a word.
"""

import glob
import os
import re

HERE = os.path.dirname(os.path.realpath(__file__))
TABLE = dict(l.split() for l in open(os.path.join(HERE, "spelling.txt"), encoding="utf-8"))
# lemmas that had the new name of a definition already: the modules that declare each
LEMMAS = {
    "keys_in": "edit.proofs.Copies",
    "all_yes": "repair.proofs.RootsHeld",
    "counts_of": "format.proofs.Checked",
    "version_of": "format.proofs.Checked",
    "node_at": "format.proofs.Descent",
    "is_below": "paged_lookup.proofs.Bands",
    "root_in": "pages.proofs.Opened paged_lookup.proofs.Steps",
    "bit_in": "climb.proofs.BitPlaces",
    "in_lane": "gate.proofs.gate_refusal.Proof",
}
TOKEN = re.compile(r"[^\s(){};,.:λ∷\[\]|`\"]+")


def new_name(name, after_dot, in_proof):
    to = TABLE.get(name, name)
    if after_dot and in_proof and to.endswith("_lem"):
        to = to[:-4]
    return to


def turned(text, in_proof=False, only_capitals=False):
    def one(m):
        name = m.group(0)
        if only_capitals and not re.search(r"[a-z0-9][A-Z]", name):
            return name
        return new_name(name, text[: m.start()].endswith("."), in_proof)

    return TOKEN.sub(one, text)


def comment(text):
    parts = text.split("`")
    return "`".join(turned(p, only_capitals=i % 2 == 0) for i, p in enumerate(parts))


def antt(path, text):
    module = path[len("crates/") : -len(".antt")].replace("/", ".")
    for name, wheres in LEMMAS.items():
        imported = any(re.search(r"use Rattle\." + re.escape(w) + r"\.\{[^}]*(?<![\w-])" + name + r"(?![\w'-])", text) for w in wheres.split())
        if module in wheres.split() or imported:
            text = re.sub(r"(?<![\w.'-])" + name + r"(?![\w.'-])", name + "_lem", text)
    in_proof = "/proofs/" in path and path.split("/proofs/")[1].count("/") > 0
    lines = []
    for l in text.split("\n"):
        at = l.find("--") if re.match(r"\s*--", l) else -1
        lines.append(l[:at] + comment(l[at:]) if at >= 0 else turned(l, in_proof))
    return "\n".join(lines)


def rt(text):
    out, clause = [], 0
    for l in text.split("\n"):
        if re.match(r"\s*//", l):
            out.append(comment(l))
            continue
        if re.match(r"\s*(ensures|requires|ghost use|ghost \w+:)", l):
            clause = 1
        if clause:
            out.append(turned(l))
        else:
            out.append(l)
        if clause and (l.rstrip().endswith(("}", "};", "},")) or l.strip() == "{"):
            clause = 0
    return "\n".join(out)


def edit(text):
    """The texts of a must-fail edit: those of a definition or a proof are turned, and those of code are code."""
    out, of = [], ""
    for l in text.split("\n"):
        if l.startswith("file: "):
            of = l
        clause = re.match(r"(old|new): \s*(ensures|requires|ghost)", l)
        out.append(turned(l) if re.match(r"(old|new):", l) and (of.endswith(".antt") or clause) else l)
    return "\n".join(out)


def write(path, turn):
    with open(path, encoding="utf-8") as f:
        old = f.read()
    new = turn(old)
    if new != old:
        with open(path, "w", encoding="utf-8") as f:
            f.write(new)
    return new != old


def main():
    changed = 0
    for path in sorted(glob.glob("crates/*/specs/**/*.antt", recursive=True) + glob.glob("crates/*/proofs/**/*.antt", recursive=True)):
        changed += write(path, lambda t: antt(path, t))
    for path in sorted(glob.glob("crates/*/src/**/*.rt", recursive=True)):
        changed += write(path, rt)
    for path in sorted(glob.glob("crates/*/must-fail/*.edit")):
        changed += write(path, edit)
    print(f"spelling: {changed} files changed")


main()
