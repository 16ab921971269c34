#!/usr/bin/env python3
"""Brings the repository's own names of definitions, fields and lemmas to today's spelling.

Run once, at the top of the repository, after port.py: words in snake case, types in camel case.
Names that Rattle makes (goals and steps of a proof, which keep their dashes) and the lemmas of the
library stay, and so do the names of functions in src/, strings, comments, inputs and outputs.
"""
import glob
import re
import sys

NAME = re.compile(r"(?<![\w'◌-])[A-Za-z_][A-Za-z0-9_']*(?:-[A-Za-z0-9_']+)*(?![\w'◌-])")

# Lemmas of the library that this repository cites.
LIBRARY = set("""
All-from_get_or All-get_or All-push Decides-and Decides-below_and Decides-eqb Decides-or add-mul add-one
append-nil cond-false cond-true count_by-le-length drop-cons drop-drop drop-set drop-set-add eq-eqb
eqb-false eqb-true filter-append get_or-eq_default get_or-le-sum_by get_or-map get_or-remove_above
get_or-remove_below get_or-replicate get_or-set_other get_or-take le-leb le-ltb leb-false leb-true
length-append length-drop length-filter length-map length-range_with_len length-remove length-replicate
length-set length-take length-take-le lt-leb lt-ltb ltb-false ltb-true map-id map-range_with_len_more
mul-add mul-le-mul_left mul-one mul-suc mul-zero not-false not-true one-mul set-append_right sub-zero
sum_by-IsPermutation sum_by-cons sum_by-set sum_by-take-le take-append-drop take-append-le
take-map-range_with_len take-set-le
""".split())

# Lemmas of this repository about a fact of the library: the fact keeps its capital and its dash.
FACTS = {"All-more", "All-weaker", "Decides-like", "get_or-set_same"}

# Names in camel case, and what stands for each: `mesh_of` is taken by the meshes of two upper crates.
CAMEL = {"meshOf": "mesh_by", "meshAt": "mesh_at", "lawfulNet": "lawful_net", "oneWay": "one_way", "getD-bumped": "get_or_bumped"}

DECLARED = re.compile(r"\s*(?:(?:unfoldable|abbrev|pub|record|data|ruleset)\s+)*([A-Za-z_][A-Za-z0-9_'-]*)\s*(?:\{|\(|:)")


def is_proof(path):
    """A proof of one function, where most names are made by Rattle."""
    return path.endswith(("/Answers.antt", "/Invariants.antt", "/Proof.antt"))


def respelled(name):
    """The name in snake case, or in camel case where it is a type's."""
    if name in CAMEL:
        return CAMEL[name]
    if name[0].isupper():
        return "".join(part[0].upper() + part[1:] for part in name.split("-"))
    return name.replace("-", "_")


def code(line, mark):
    """The line up to its comment, and the comment."""
    at = re.search(mark + r"(?= |$)", line)
    return (line[: at.start()], line[at.start() :]) if at else (line, "")


def own_names(paths):
    """The dashed names that definitions and lemma files declare or bind, and lemmas beside answers."""
    names = set(CAMEL)
    for path in paths:
        for line in open(path, encoding="utf-8"):
            text = code(line, "--")[0]
            if not is_proof(path):
                names |= {n for n in NAME.findall(text) if "-" in n}
            else:
                declared = DECLARED.match(text)
                if declared and "-" in declared.group(1) and not re.search(r":\s*goal\.", text):
                    names.add(declared.group(1))
    return names - LIBRARY - FACTS


def respell(text, names, proof):
    def one(m):
        before = text[max(0, m.start() - 5) : m.start()]
        made = proof and re.search(r"(?:\b[clw]\.|\bgoal\.)$", before)
        return m.group(0) if made or m.group(0) not in names else respelled(m.group(0))

    return NAME.sub(one, text)


def main():
    antt = sorted(glob.glob("crates/*/specs/**/*.antt", recursive=True) + glob.glob("crates/*/proofs/**/*.antt", recursive=True))
    names = own_names(antt)
    for path in antt + sorted(glob.glob("crates/*/src/**/*.rt", recursive=True)):
        mark = "--" if path.endswith(".antt") else "//"
        lines = []
        for line in open(path, encoding="utf-8"):
            text, comment = code(line, mark)
            if re.match(r"use \S*\.(?:Goals|Given)\.\{", text):
                lines.append(line)
                continue
            lines.append(respell(text, names, is_proof(path)) + re.sub(r"`([^`]+)`", lambda m: "`" + respell(m.group(1), names, False) + "`", comment))
        new = "".join(lines)
        if new != open(path, encoding="utf-8").read():
            open(path, "w", encoding="utf-8").write(new)
    if "--names" in sys.argv:
        for name in sorted(names):
            print(name, respelled(name))


main()
