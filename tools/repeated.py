#!/usr/bin/env python3
"""Prints each clause that stands in the contracts of three or more functions of a crate.

usage: tools/repeated.py [FOLDER]   (the folder that has crates/; this one, if none is given)
"""
import collections
import glob
import re
import sys

root = sys.argv[1] if len(sys.argv) > 1 else "."
places = collections.defaultdict(set)
for path in sorted(glob.glob(root + "/crates/*/src/**/*.rt", recursive=True)):
    crate = path.split("/crates/")[1].split("/")[0]
    text = open(path, encoding="utf-8").read()
    for found in re.finditer(r"fn (\w+)[^{]*?\((.*?)\)(.*?)(?=\n\s*\{\n|;\n)", text, re.S):
        clauses = re.finditer(r"(requires|ensures) \w* ?\{ (.*?) \}\n", found.group(3) + "\n")
        for clause in clauses:
            places[(crate, clause.group(2))].add(found.group(1))
for (crate, clause), functions in sorted(places.items(), key=lambda item: -len(item[1])):
    if len(functions) >= 3:
        print(len(functions), crate, clause, ", ".join(sorted(functions)))
