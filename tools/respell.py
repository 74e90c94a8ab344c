#!/usr/bin/env python3
"""Brings this repository's own definitions and lemmas to today's spelling: words in snake case, types and modules in camel case.

usage: tools/respell.py            at the top, once, after the kit's port.py: rewrites specs/, proofs/, clauses, edits and the names that pages cite
       tools/respell.py --list     prints each old name and its new one, and changes nothing

A name is respelled where a file of specs/ or proofs/ declares it: camelCase and kebab-case become snake_case. A lemma that would then have the
name of a definition, or of another lemma, ends in _lem. Names that a file takes from the library, names of src/, exported names, strings and
file names stay. It stops where two names of one file would fall together.
"""
import os
import re
import sys

TOKEN = re.compile(r"(?<![\w'·-])([A-Za-z_][\w']*(?:-[\w']+)*)")
DECLARED = re.compile(r"^\s*(?:(?:unfoldable|abbrev|pub|opaque|hide) )*([^\s(){}.,;:]+) :(?: |$)", re.M)
CLAUSE = re.compile(r"^\s*(ghost use|ghost |requires|ensures|decreases|}?\s*[×→≡])")
# Lemmas that port.py brought to snake case, whose names a definition of these crates now takes: they end in _lem.
GIVE_WAY = {
    "note_step": ("law", "clusters"),
    "in_use": ("counts",),
    "line_known": ("layout",),
    "entry_known": ("layout",),
    "in_order": ("rack", "runs"),
    "distinct_from": ("verdict",),
}
GENERATED = re.compile(r"(?:proofs|contracts)\.$")


def snake(name):
    """The name in snake case."""
    name = re.sub(r"(?<=[a-z0-9'])([A-Z])", lambda m: "_" + m.group(1).lower(), name)
    return name.replace("-", "_")


def antt_files(root):
    for folder, dirs, files in os.walk(os.path.join(root, "crates")):
        dirs[:] = sorted(d for d in dirs if d != "out")
        for f in sorted(files):
            if f.endswith(".antt"):
                yield os.path.join(folder, f)


def crate_of(path, root):
    return os.path.relpath(path, root).split(os.sep)[1]


def bare(text):
    return re.sub(r"--.*", "", text)


def own_names(root):
    """Each declared name that is to be respelled, with its new spelling. What follows one function's code (Proof.antt) declares nothing that others name."""
    names, stay = set(), set()
    for p in antt_files(root):
        with open(p, encoding="utf-8") as f:
            text = bare(f.read())
        if os.path.basename(p) != "Proof.antt":
            for n in DECLARED.findall(text):
                if re.match(r"^[a-z][\w']*(-[\w']+)*$", n):
                    (names if snake(n) != n else stay).add(n)
        for line in re.findall(r"^\s*(?:pub )?use \S*?\{([^}]*)\}", text, re.M):
            for item in line.split(","):
                m = re.match(r"\s*\S+ as ([a-z][\w']*(?:-[\w']+)*)\s*$", item)
                if m and snake(m.group(1)) != m.group(1):
                    names.add(m.group(1))
    defined = {snake(n) for n in names if "-" not in n} | stay
    return {n: snake(n) + ("_lem" if "-" in n and snake(n) in defined else "") for n in names}


def from_library(text, crates):
    """The words that this file takes from the library: they keep their spelling."""
    kept = set()
    pattern = re.compile(r"use (?!Rattle\.(?:%s)\.)\S*?\{([^}]*)\}" % "|".join(crates))
    for line in pattern.findall(text):
        for item in line.split(","):
            kept.add(item.strip().split(" as ")[0].strip())
    return kept


def turn(text, names, kept, crate):
    def one(m):
        n = m.group(1)
        if crate in GIVE_WAY.get(n, ()) and not GENERATED.search(text[:m.start()][-12:]):
            return n + "_lem"
        return names[n] if n in names and n not in kept else n
    return TOKEN.sub(one, text)


def fall_together(text, names, kept, crate):
    """Words of one file that would become one."""
    seen = {}
    for m in TOKEN.finditer(bare(text)):
        if not GENERATED.search(bare(text)[:m.start()][-12:]):
            seen.setdefault(turn(m.group(1), names, kept, crate), set()).add(m.group(1))
    return [sorted(v) for v in seen.values() if len(v) > 1]


def turn_source(text, names, crates, crate):
    """A source's ghost imports and clauses, and nothing else of it."""
    kept = from_library(text, crates)
    out, depth, inside = [], 0, False
    for line in text.split("\n"):
        code = line.split("//")[0] if line.lstrip().startswith("//") else line
        if not inside and CLAUSE.match(code):
            inside, depth = True, 0
        if inside:
            out.append(turn(line, names, kept, crate))
            depth += code.count("{") - code.count("}")
            if depth <= 0 and (code.rstrip().endswith(("}", ";", ",")) or "ghost use" in code):
                inside = False
        else:
            out.append(line)
    return "\n".join(out)


def rewrite(path, new, old):
    if new != old:
        with open(path, "w", encoding="utf-8") as f:
            f.write(new)


def main(argv):
    root = os.getcwd()
    crates = sorted(os.listdir(os.path.join(root, "crates")))
    names = own_names(root)
    if argv == ["--list"]:
        for n in sorted(names):
            print(n, names[n])
        return 0
    clashes = 0
    for p in antt_files(root):
        with open(p, encoding="utf-8") as f:
            text = f.read()
        for words in fall_together(text, names, from_library(text, crates), crate_of(p, root)):
            print("respell: %s: these fall together: %s" % (os.path.relpath(p, root), " ".join(words)))
            clashes += 1
    if clashes and argv != ["--anyway"]:
        return 1
    for p in antt_files(root):
        with open(p, encoding="utf-8") as f:
            text = f.read()
        rewrite(p, turn(text, names, from_library(text, crates), crate_of(p, root)), text)
    for crate in crates:
        src = os.path.join(root, "crates", crate, "src")
        for f in sorted(os.listdir(src)):
            if f.endswith(".rt"):
                p = os.path.join(src, f)
                with open(p, encoding="utf-8") as g:
                    text = g.read()
                rewrite(p, turn_source(text, names, crates, crate), text)
    return 0


if __name__ == "__main__":
    sys.exit(main(sys.argv[1:]))
