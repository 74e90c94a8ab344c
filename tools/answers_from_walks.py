#!/usr/bin/env python3
"""Turns old proofs that list every goal (proofs/F/Proof.antt) into today's Invariants.antt and Answers.antt.

usage: tools/answers_from_walks.py NAMES CRATE..    at the top; NAMES is the folder that `rt names NAMES` wrote

An old answer becomes an answer to the goal of the same place in the function, with its paths as today's records name them; an old answer
that was only a search is left out, since the check searches by itself. What it can't turn it says, and leaves as it was. It proves nothing.
"""
import difflib
import json
import os
import re
import subprocess
import sys

COMMON = "/rattle/std/proofs/Common.antt"
GENERATED = re.compile(r"^use (?:Rattle\.\w+\.proofs\.\S*\.(?:Statement|Tie|Lts\S*|Kinds|Reads)\b.*|Rattle\.\w+\.proofs\.\+\S+|borrow\.Fn\..*)$")
PATH = re.compile(r"(?<![\w'.\-])([a-z]\w*'?)((?:\.[\w'\-]+)+)")
TRIVIAL = ("search rules", "tt", "(search rules)")


class Walk:
    """What the kit says of one function's goals: their places, and how both are named then and now."""

    def __init__(self, names):
        self.needs = names["needs"]
        self.places = names["places"]
        self.asked = names["asked_at"]
        self.arms = names["arms"]
        self.typed = names["typed"]
        self.loops = names["loops"]
        self.at = {p[0]: i for i, p in enumerate(self.places)}

    def parent(self, i):
        return self.at.get(self.places[i][1]) if i is not None else None

    def up(self, i):
        while i is not None:
            yield i
            i = self.parent(i)


def flat(name):
    """A step's name without what spelling changes: dashes, capitals, and the _lem of a lemma that has the step's name."""
    name = name.replace("-", "_").lower()
    return name[:-4] if name.endswith("_lem") else name


def without_overflow(name):
    for word in ("overflow-", "overflow_"):
        if name.startswith(word):
            name = name[len(word):]
    return flat(name)


def resolve(walk, goal, base, path):
    """The path below `c` that today says what `path` said at place `base` of a goal at place `goal`."""
    i, place = 0, base
    while i < len(path) and path[i] == "before":
        up = walk.parent(place)
        place = place if up is None else up
        i += 1
    if i == len(path):
        return ("place", place)
    first, rest = path[i], path[i + 1:]
    if first in ("args", "requires", "ranges", "well_formed", "lifetimes", "type_inv"):
        return ("path", ["c", first] + rest)
    order = list(walk.up(place)) + [q for q in walk.up(goal)]
    found = next((q for q in order if flat(walk.places[q][2][0]) == flat(first)), None)
    # an arm's parts
    for q in list(walk.up(goal)):
        arm = walk.arms[q] if q < len(walk.arms) else None
        if not arm:
            continue
        fits = [(len(p), new, p) for new, old, p in arm[2] if p and flat(old) == flat(first) and rest[:len(p)] == p]
        if fits:
            n, new, p = max(fits)
            return ("path", ["c", arm[0], new] + rest[n:])
    if rest[:1] == ["given"]:
        for var, step in walk.typed[goal] if goal < len(walk.typed) else []:
            if flat(step) == flat(first):
                return ("path", ["c", "type_inv", var] + rest[1:])
        for q in order:
            for var, step in walk.typed[q] if q < len(walk.typed) else []:
                if flat(step) == flat(first):
                    return ("path", ["c", "type_inv", var] + rest[1:])
    if found is None:
        return ("lost", first)
    return ("path", ["c", walk.places[found][2][1]] + rest)


def turn_body(walk, goal, body, said):
    aliases = {"c": goal}
    # let d = c.before.before in  : a place by another name
    for m in re.finditer(r"let (\w+'?) = (c(?:\.before)+) in\s*", body):
        kind, place = resolve(walk, goal, goal, m.group(2).split(".")[1:])
        aliases[m.group(1)] = place
    body = re.sub(r"let (\w+'?) = (c(?:\.before)+) in\s*", "", body)

    def one(m):
        if m.group(1) not in aliases:
            return m.group(0)
        kind, value = resolve(walk, goal, aliases[m.group(1)], m.group(2).split(".")[1:])
        if kind == "path":
            return ".".join(value)
        said.append(f"{m.group(0)}: {kind} {value}")
        return m.group(0)
    return PATH.sub(one, body)


def blocks(text):
    """The declarations of a file: (comment, name, signature with its unfolding lines, equations)."""
    out, comment, lines, i = [], [], text.split("\n"), 0
    uses, head = [], []
    while i < len(lines):
        line = lines[i]
        if line.startswith("use "):
            uses.append(line)
            head += comment
            comment = []
            i += 1
        elif line.startswith("--"):
            comment.append(line)
            i += 1
        elif not line.strip():
            i += 1
        else:
            m = re.match(r"(?:(?:abbrev|pub|unfoldable) )*(\S+) :", line)
            if not m:
                raise ValueError("line %d: %s" % (i + 1, line))
            name, block = m.group(1), [line]
            i += 1
            while i < len(lines) and not re.match(r"(?:(?:abbrev|pub|unfoldable) )*[^\s(){}]+ :( |$)|--", lines[i]):
                block.append(lines[i])
                i += 1
            cut = next((k for k, l in enumerate(block) if k and re.match(re.escape(name) + r"(?=[ =\n]|$)", l)), len(block))
            out.append((comment, name, "\n".join(block[:cut]).rstrip(), "\n".join(block[cut:]).rstrip()))
            comment = []
    return head, uses, out


def used(name, text):
    word = name.split(" as ")[-1].strip()
    if "◌" in word:
        parts = [p for p in word.split("◌") if p]
        return all(p in text for p in parts)
    return re.search(r"(?<![\w'\-])" + re.escape(word) + r"(?![\w'\-])", text) is not None


def common_names(kit):
    names = {}
    with open(kit + COMMON, encoding="utf-8") as f:
        for m in re.finditer(r"^pub use (\S+?)\.\{([^}]*)\}", f.read(), re.M):
            for n in m.group(2).split(","):
                names[n.strip()] = m.group(1)
    return names


def imports(uses, text, common):
    """The lines of `uses` whose names `text` has, by way of std's page of common names where that passes them on."""
    shared, other = [], []
    for line in uses:
        if GENERATED.match(line):
            continue
        m = re.match(r"use (\S+?)\.\{([^}]*)\}$", line)
        if not m:
            if used(re.split(r"[. ]", line)[-1], text):
                other.append(line)
            continue
        names = [n.strip() for n in m.group(2).split(",") if used(n.strip(), text)]
        mine = [n for n in names if n in common and not m.group(1).startswith("Rattle.") or (n in common and m.group(1).startswith("Rattle.std."))]
        shared += [n for n in mine if n not in shared]
        names = [n for n in names if n not in mine]
        if names:
            other.append("use %s.{%s}" % (m.group(1), ", ".join(names)))
    return (["use Rattle.std.proofs.Common.{%s}" % ", ".join(shared)] if shared else []) + other


def spec_order(blocks_, goals):
    last = blocks_[-1]
    text = last[3]
    return [n for n in re.findall(r"(?<![\w'.\-])([A-Za-z_][\w'\-]*)(?![\w'\-])", text) if n in goals]


def match_goals(order, goals, walk):
    """Which of today's goals each old one is: by place where there are as many, else by name."""
    if len(order) == len(walk.needs):
        return {n: k for k, n in enumerate(order)}
    mine = [without_overflow(goals[n]) for n in order]
    theirs = [without_overflow(old) for old, new in walk.needs]
    found = {}
    for a, b, size in difflib.SequenceMatcher(None, mine, theirs, autojunk=False).get_matching_blocks():
        for k in range(size):
            found[order[a + k]] = b + k
    return found


def turn_invariant(walk, name, sig, eq, goal_word, new_goal, params_of):
    m = re.match(re.escape(name) + r"((?: [^\s=]+)*) =\s*(.*)$", eq, re.S)
    params, body = m.group(1).split(), m.group(2)

    def one(p):
        if p.startswith("_"):
            return None
        return "l.initial." + p[:-1] if p.endswith("₀") else "l." + p
    for p in params:
        to = one(p)
        if to:
            body = re.sub(r"(?<![\w'.\-₀λ])" + re.escape(p) + r"(?![\w'\-₀])", to, body)
    return "abbrev pub %s : goal.%s\n%s l =%s%s" % (new_goal, new_goal, new_goal, "\n    " if "\n" in body else " ", body)


def convert(folder, walk, module, common, function, params):
    path = os.path.join(folder, "Proof.antt")
    with open(path, encoding="utf-8") as f:
        text = f.read()
    head, uses, decls = blocks(text)
    said, goals, inv, helpers, answers = [], {}, [], [], []
    for comment, name, sig, eq in decls:
        m = re.search(r"(?:tie|Tie|[\w+'-]*-lts|lts)\.Need-([\w'\-]+)", sig)
        if m and "→ ⊥" not in sig and not re.search(r"→\s*c\.", sig):
            goals[name] = m.group(1)
    order = spec_order(decls, goals)
    index = match_goals(order, goals, walk)
    lost = [n for n in order if n not in index]
    recursive = os.path.basename(folder).startswith("+")
    for comment, name, sig, eq in decls[:-1]:
        if name in goals:
            if name not in index:
                continue
            k = index[name]
            new = walk.needs[k][1]
            place = walk.at[walk.asked[k][0]]
            m = re.match(re.escape(name) + r"((?: [^\s=]+)*) =\s*(.*)$", eq, re.S)
            if not m:
                said.append("%s: no single equation" % name)
                continue
            args, body = m.group(1).split(), m.group(2).strip()
            if body in TRIVIAL:
                continue
            args = [a for a in args if a != "κs"]
            body = turn_body(walk, place, body, said)
            unfolding = re.findall(r"^unfolding .*$", sig, re.M)
            answers.append("\n".join(comment + ["pub %s : goal.%s" % (new, new)] + unfolding + ["%s %s =%s%s" % (new, " ".join(args), "\n    " if "\n" in body else " ", body)]))
        elif re.search(r"(?:tie|Tie)\.invariant|(?:tie|Tie)\.InvT|(?:tie|Tie)\.decreases|(?:tie|Tie)\.MeasureT", sig):
            m = re.search(r"(?:tie|Tie)\.(invariant|decreases)-([\w'\-]+)", sig)
            old_loop = m.group(2)
            new_loop = next((l[0][1] for l in walk.loops if flat(l[0][0]) == flat(old_loop)), None)
            if new_loop is None:
                said.append("no loop " + old_loop)
                continue
            inv.append("\n".join(comment + [turn_invariant(walk, name, sig, eq, m.group(1), "%s-%s" % (m.group(1), new_loop), params)]))
        elif name.startswith("μ-"):
            m = re.search(r"=\s*a((?:\.1)*)\.0(.*)$", eq)
            ps = params.get(function, [])
            if m and len(m.group(1)) // 2 < len(ps):
                inv.append("abbrev pub decreases-%s : goal.decreases-%s\ndecreases-%s l = l.%s%s" % (function.split("::")[-1], function.split("::")[-1], function.split("::")[-1], ps[len(m.group(1)) // 2], m.group(2)))
            else:
                said.append("measure: " + eq)
        elif re.search(r"Measures|In 1|In \d", sig):
            continue
        else:
            helpers.append((comment, name, sig, eq))
    for comment, name, sig, eq in helpers:
        if re.search(r"lts\.|tie\.|Tie\.|(?<![\w.])c\.", sig + eq):
            said.append("helper %s speaks of generated records" % name)
    out = []
    for comment, name, sig, eq in helpers:
        out.append("\n".join(comment + [sig, eq]))
    if lost:
        said.append("no goal today for: " + " ".join("%s (%s)" % (n, goals[n]) for n in lost))
    body = "\n\n".join(out + answers)
    if inv:
        ib = "\n\n".join(inv)
        lines = (head or []) + imports(uses, ib, common) + ["use %s.Given as goal" % module]
        with open(os.path.join(folder, "Invariants.antt"), "w", encoding="utf-8") as f:
            f.write("\n".join(lines) + "\n\n" + ib + "\n")
    if answers:
        lines = ([] if inv else (head or [])) + imports(uses, body, common) + ["use %s.Goals as goal" % module]
        with open(os.path.join(folder, "Answers.antt"), "w", encoding="utf-8") as f:
            f.write("\n".join(lines) + "\n\n" + body + "\n")
    os.remove(path)
    return said


def main(argv):
    names_folder, crates = argv[0], argv[1:]
    kit = os.path.dirname(subprocess.run(["rt", "doc"], capture_output=True, text=True, check=True).stdout.strip())
    common = common_names(kit)
    for crate in crates:
        with open(os.path.join(names_folder, "crates", crate, "names.json"), encoding="utf-8") as f:
            names = json.load(f)
        params = {}
        for key, n in names.items():
            if isinstance(n, dict) and "params" in n:
                params.update(n["params"])
        root = os.path.join("crates", crate, "proofs")
        for folder, dirs, files in sorted(os.walk(root)):
            if "Proof.antt" not in files:
                continue
            rel = os.path.relpath(folder, root).replace(os.sep, ".")
            keys = [k for k in names if k.startswith("Rattle-%s-proofs.%s.Lts" % (crate, rel))]
            with open(os.path.join(folder, "Proof.antt"), encoding="utf-8") as f:
                text = f.read()
            if "types.Kit" in text or "types.Run" in text or not keys:
                print("%s %s: a walk by hand, or no names: left" % (crate, rel))
                continue
            try:
                said = convert(folder, Walk(names[keys[0]]), "Rattle.%s.proofs.%s" % (crate, rel), common, "%s::%s" % (crate, rel.replace(".", "::").replace("+", "")), params)
            except (ValueError, AttributeError, KeyError, TypeError, IndexError) as e:
                print("%s %s: left, %s %s" % (crate, rel, type(e).__name__, e))
                continue
            for s in said:
                print("%s %s: %s" % (crate, rel, s))
    return 0


if __name__ == "__main__":
    sys.exit(main(sys.argv[1:]))
