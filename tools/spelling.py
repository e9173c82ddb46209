#!/usr/bin/env python3
"""Gives the definitions and lemmas of specs/ and proofs/ the spelling of today's Rattle.

usage: python3 tools/spelling.py [--list]

Run it once, at the top, after the kit's port.py. A definition, field, constructor or lemma of this repository whose name begins with a small letter
is written in snake case: `afterCall` and `after-call` become `after_call`. A name that a type or a sign is joined to keeps that dash. Types and modules keep their names, and so do
functions of src/, exported C names, strings, inputs and outputs, and the names that Rattle makes. --list writes the table and changes nothing.
"""

import collections
import os
import re
import sys

TOKEN = re.compile(r'[^\s(){}.;,@"«»\[\]`:|]+')
DECLARED = re.compile(r"^( *)(?:(?:abbrev|opaque|unfoldable|pub|instance|ruleset)\s+)*([^\s(){}.;,@\"«»:=|]+)\s*(?::(?:\s|$)|$)")
MADE = re.compile(r"^(returns|loop|bounds|slice_bounds|overflow|nonzero|if|in|invariant|decreases|ghost|Need|prove|index|else|then)(-|$)|-(requires|init|preserved|smaller)(-\d+)?$")
# words that Rattle or its library means something by
WORDS = {"type-inv", "in-default"}
# port.py spelled these lemmas as a definition beside them is to be spelled: they get _lem first, in these places
FIRST = {
    "at_rest": ["crates/laws/proofs/Written.antt"],
    "digit_value": ["crates/paper/"],
    "from_on": ["crates/" + c + "/" for c in ("laws", "blank_map", "suspended", "paper", "wear_records", "restart", "acceptance")],
    "made_then": ["crates/history/proofs/Scripts.antt"],
    "marked_by": ["crates/blank_map/proofs/Kept.antt"],
    "one_more": ["crates/paper/proofs/Wear.antt"],
    "part_bytes": ["crates/record_bytes/proofs/Parts.antt"],
    "part_length": ["crates/record_bytes/"],
    "same_blocks": ["crates/paper/proofs/Protected.antt"],
    "same_bytes": ["crates/record_bytes/proofs/"],
    "seen_by": ["crates/blank_map/"],
}


def snake(name):
    parts = re.split(r"-", name)
    out = parts[0]
    for p in parts[1:]:
        joins = out[-1:].isascii() and (out[-1:].isalnum() or out[-1:] in "_'") and p[:1].isascii() and (p[:1].islower() or p[:1].isdigit())
        out += ("_" if joins else "-") + p
    if re.match(r"[◌a-z]", out):
        out = re.sub(r"(?<=[a-z0-9])([A-Z]+)(?=[A-Z][a-z])", r"_\1", out)
        out = re.sub(r"(?<=[a-z0-9])([A-Z])", r"_\1", out).lower()
    return out


def antt_files():
    for top, dirs, files in os.walk("crates"):
        dirs[:] = sorted(d for d in dirs if d != "out")
        for f in sorted(files):
            if f.endswith(".antt"):
                yield os.path.join(top, f)


def own_names():
    found = collections.defaultdict(set)
    for path in antt_files():
        parts = path.split(os.sep)
        if os.path.basename(path) in ("Answers.antt", "Invariants.antt"):
            if parts[2] == "proofs" and len(parts) > 4 and os.path.isdir(os.path.dirname(path)) and parts[3][0].islower():
                continue
        in_function = parts[2] == "proofs" and len(parts) > 4 and parts[3][0].islower()
        for line in open(path, encoding="utf-8"):
            line = re.sub(r"\s--.*|^--.*", "", line)
            if in_function and not line.startswith("pub "):
                continue
            m = DECLARED.match(line.rstrip("\n"))
            if not m or not re.search(r":(\s|$)", line):
                continue
            name = m[2]
            if not re.match(r"[a-z◌]", name) or MADE.search(name) or name in WORDS:
                continue
            if not (re.search(r"[a-z0-9][A-Z]", name) or re.search(r"[a-z0-9]-[a-z0-9]", name)):
                continue
            found[name].add(path)
    return found


def all_names():
    """The declared names that keep their spelling."""
    found = set()
    for path in antt_files():
        for line in open(path, encoding="utf-8"):
            m = DECLARED.match(re.sub(r"\s--.*|^--.*", "", line).rstrip("\n"))
            if m and re.search(r":(\s|$)", line) and re.match(r"[a-z◌]", m[2]) and snake(m[2]) == m[2]:
                found.add(m[2])
    return found


def table():
    names = own_names()
    rows = {n: snake(n) for n in names}
    # a lemma that would have a definition's name gets _lem
    taken = collections.Counter(rows.values())
    plain = all_names()
    for n, s in rows.items():
        if "-" in n and (taken[s] > 1 or s in plain):
            rows[n] = s + "_lem"
    # a name between places is also written without them
    for n, s in list(rows.items()):
        if "◌" in n:
            rows[n.strip("◌")] = s.strip("◌")
    return {a: b for a, b in rows.items() if a != b}, names


def turn(text, rows):
    return TOKEN.sub(lambda m: turn_token(m[0], rows), text)


def turn_token(t, rows):
    if t in rows:
        return rows[t]
    m = re.match(r"(.*?)('+)$", t)
    if m and m[1] in rows:
        return rows[m[1]] + m[2]
    return t


# a .rt file: comments and clauses hold such names; a string never does
RT = re.compile(r'b?"(?:\\.|[^"\\])*"|b?\'(?:\\.|[^\'\\])\'|(?:(?!b?"|b?\'(?:\\.|[^\'\\])\').)+', re.S)


def files():
    for top, dirs, names in os.walk("."):
        dirs[:] = sorted(d for d in dirs if d not in ("out", ".git", "target", "tools"))
        for f in sorted(names):
            p = os.path.join(top, f)
            if f.endswith((".antt", ".edit", ".rt", ".md")) and (top.startswith("./crates") or top.startswith("./docs") or f.endswith(".md")):
                yield p


def main(argv):
    rows, names = table()
    if "--list" in argv:
        for a, b in sorted(rows.items()):
            print(f"{a}\t{b}\t{' '.join(sorted(names.get(a, [])))}")
        return
    n = 0
    for p in files():
        text = open(p, encoding="utf-8").read()
        first = {a: a + "_lem" for a, where in FIRST.items() if p.endswith(".antt") and any(p[2:].startswith(w) for w in where)}
        was, text = text, turn(text, first)
        if p.endswith(".md"):
            new = re.sub(r"`[^`\n]+`", lambda m: turn(m[0], rows), text)
        elif p.endswith(".rt"):
            new = "".join(m[0] if m[0].lstrip("b")[:1] in "\"'" else turn(m[0], rows) for m in RT.finditer(text))
        else:
            new = turn(text, rows)
        if new != was:
            n += 1
            with open(p, "w", encoding="utf-8") as f:
                f.write(new)
    print(f"spelling: {len(rows)} names, {n} files")


if __name__ == "__main__":
    main(sys.argv[1:])
