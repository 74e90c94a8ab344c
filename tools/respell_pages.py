#!/usr/bin/env python3
"""Brings the names that the pages cite to the spelling that the sources have now.

usage: tools/respell_pages.py            at the top, once, after tools/respell.py: rewrites the pages, in backquotes
       tools/respell_pages.py --list     prints each old name and its new one, and changes nothing
       tools/respell_pages.py --paths    only brings paths up to date of what has moved, mostly from specs/laws/ to proofs/theorems/

The first line of docs/PORT.md names the commit in the old spelling. A file of specs/, or of lemmas, declares the same things in the same order there
and here: so the names are laid beside one another, file by file. A name that became two is left as it is, and printed where a page has it.
"""
import os
import re
import subprocess
import sys

PAGES = ["README.md", "samples/README.md", "compare/README.md", "compare/RACK.md"]
PAGES += [f"docs/{it}.md" for it in ("C", "DECISIONS", "FORMAT", "FOR-TEACHERS", "PROMISES", "PROVING", "WHY-IT-HOLDS")]
NAME = r"[^\s(){}.;,:\"]+"
MARKS = r"\s*(?:(?:pub|abbrev|unfoldable|opaque|axiom)\s+)*(?:record\s+|data\s+)?"
DECLARED = re.compile(rf"{MARKS}({NAME}(?:\s+{NAME})*)(?:\s*(?:\{{[^}}]*\}}|\([^)]*\)))*\s*:(?:\s|$)")
NO_NAMES = ("use", "module", "where", "let")
QUOTED = re.compile(r"```.*?```|`[^`]*`", re.S)
CITED = re.compile(r"(?:`([^`\n]*)`\s*\()?(crates/(\w+)/[\w/]+\.antt)")
WORD = re.compile(r"[A-Za-z_][\w'′]*(?:-[\w'′]+)*")


def git(*words):
    return subprocess.run(["git", *words], capture_output=True, text=True, check=True).stdout


def declared(text):
    """The names that a file declares, in order: definitions, lemmas, fields and constructors."""
    names = []
    for line in text.split("\n"):
        found = None if line.lstrip().startswith("--") else DECLARED.match(line)
        words = found[1].split() if found else []
        if words and words[0] not in NO_NAMES:
            names += words
    return names


def respelled(landed):
    """Each name that the old files declare, with the names that it has now."""
    names = {}
    for file in git("ls-tree", "-r", "--name-only", landed, "crates").split("\n"):
        is_own = re.match(r"crates/\w+/(specs/|proofs/[^/]*$)", file) and file.endswith(".antt")
        if not is_own or not os.path.isfile(file):
            continue
        with open(file, encoding="utf-8") as it:
            old, new = declared(git("show", f"{landed}:{file}")), declared(it.read())
        if len(old) != len(new):
            print(f"{file}: passed over, since it has {len(new)} names now and had {len(old)} then")
            continue
        for one, other in zip(old, new):
            names.setdefault(one, set()).add(other)
    return names


def declares(file, name):
    with open(file, encoding="utf-8") as it:
        return name in declared(it.read())


def moved(found):
    """A path, with the name before it where there is one; or the path of the one file that declares the name, or has the file's, where that has moved."""
    name, path, crate = found[1], found[2], found[3]
    files = [f"{at}/{file}" for top in ("specs", "proofs") for at, _, files in os.walk(f"crates/{crate}/{top}") for file in sorted(files)]
    there = os.path.isfile(path)
    if there and (not name or declares(path, name)):
        return found[0]
    homes = [it for it in files if name and declares(it, name)] or ([] if there else [it for it in files if it.endswith("/" + os.path.basename(path))])
    return found[0].replace(path, homes[0]) if len(homes) == 1 else found[0]


def main():
    with open("docs/PORT.md", encoding="utf-8") as it:
        names = {} if "--paths" in sys.argv else respelled(it.readline().strip())
    if "--list" in sys.argv:
        for one in sorted(names):
            print(one, *sorted(names[one]))
        return
    for page in PAGES:
        with open(page, encoding="utf-8") as it:
            text = CITED.sub(moved, it.read())

        def word(found):
            now = names.get(found[0], {found[0]})
            if len(now) > 1:
                print(f"{page}: {found[0]} is now one of {', '.join(sorted(now))}")
            return now.copy().pop() if len(now) == 1 else found[0]

        if "--paths" not in sys.argv:
            text = QUOTED.sub(lambda found: WORD.sub(word, found[0]), text)
        with open(page, "w", encoding="utf-8") as it:
            it.write(text)


if __name__ == "__main__":
    main()
