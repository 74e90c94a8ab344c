#!/usr/bin/env python3
"""Lists the functions of crates/*/src with five parameters or more, `self` counted too, and says how many there are: python3 tools/parameters.py [FOLDER]"""
import glob
import re
import sys

MOST = 5


def parts(text):
    """The parameters between a function's brackets: split at the commas that stand in no bracket."""
    depth, found, last = 0, [], ""
    for c in text:
        depth += (c in "([{<") - (c in ")]}>")
        if c == "," and depth == 0:
            found.append(last)
            last = ""
        else:
            last += c
    return [p for p in found + [last] if p.strip()]


def functions(path):
    """Each function's name with what stands between the brackets after it."""
    code = re.sub(r"//[^\n]*", "", open(path, encoding="utf-8").read()).replace("->", "  ")
    for m in re.finditer(r"\bfn ([a-z_0-9]+)(?:<[^(]*>)?\(", code):
        depth, at = 1, m.end()
        while depth:
            depth += (code[at] == "(") - (code[at] == ")")
            at += 1
        yield m[1], code[m.end() : at - 1]


def main():
    root = sys.argv[1] if len(sys.argv) > 1 else "."
    count = 0
    for path in sorted(glob.glob(root + "/crates/*/src/*.rt")):
        for name, between in functions(path):
            if len(parts(between)) >= MOST:
                count += 1
                print(path.split("/crates/")[1].split("/")[0], name, len(parts(between)))
    print(count)


main()
