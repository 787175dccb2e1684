#!/usr/bin/env python3
"""Spells the repository's own definitions and lemmas as today's Rattle does: words in snake case. Run once, at the top, after the kit's
port.py and before any edit by hand.

usage: tools/respell.py [--list] [FOLDER]     FOLDER: the repository (default: here); --list prints old and new, and writes nothing

A definition keeps its plain spelling, and a lemma or a law that would have the same name ends in _lem. Names of the source (functions,
types, variants, parameters), exported C names, strings, inputs and outputs stay. So do the names of goals, which the toolchain makes,
and names that begin with a capital: facts, types, and the paper's D, P and the like.
"""

import os
import re
import sys

# A name as antt cuts words.
NAME = r"[^\s(){}.;,@\"«»:∷=→λ|]+"
HEAD = re.compile(rf"^( *)(?:(?:abbrev|unfoldable|pub|private) )*(data |record )?({NAME})((?: *(?:\([^()]*\)|\{{[^{{}}]*\}}))*) *:(?!=)")
GOAL = re.compile(r":.*\b(?:tie\.(?:Need|invariant|decreases)|goal\.)")
# Lemmas that would have the name of a definition, and that no rule of spelling tells from it.
OWN = {
    "add_back": "add_back_lem",
    "bit-xor": "bit_xor_lem",
    "cancel_back": "cancel_back_lem",
    "same_source": "same_source_lem",
    "second_back": "second_back_lem",
}


def snake(part):
    if part[:1].isupper():
        return part
    return re.sub(r"(?<=[a-z0-9])[A-Z]+", lambda m: "_" + m[0].lower(), part)


def antt_files(root):
    for folder, dirs, files in os.walk(os.path.join(root, "crates")):
        dirs[:] = sorted(d for d in dirs if d not in ("out", ".git"))
        for f in sorted(files):
            if f.endswith(".antt"):
                yield os.path.join(folder, f)


def declared(root):
    """The names that the repository declares, and those of goals, which it only answers."""
    names, goals = set(), set()
    for path in antt_files(root):
        with open(path) as f:
            for line in f:
                m = HEAD.match(line)
                if m and GOAL.search(line):
                    goals.add(m[3])
                elif m:
                    names.add(m[3])
    return names, goals


def spelled(name):
    return "_".join(snake(p) for p in name.split("-"))


def table(root):
    names, goals = declared(root)
    rows = {}
    for name in sorted(names):
        new = spelled(name)
        if not re.match(r"\+?[a-z]", name) or new == name:
            continue
        # A definition's older spelling is in camel case; a lemma's has dashes.
        if "-" in name and (new in names or any(n != name and "-" not in n and spelled(n) == new for n in names)):
            new += "_lem"
        rows[name] = new
    rows.update((old, new) for old, new in OWN.items() if old in names)
    return rows, goals


WORD = re.compile(r"(?<![\w'-])[A-Za-z][\w'⁺-]*")
# What is no code: comments and strings. In a comment, names in camel case and names in backquotes are respelled.
APART = re.compile(r'"(?:[^"\\\n]|\\.)*"|(?://|(?<![^\s])--).*')


def turned(text, rows):
    def word(m):
        return rows.get(m[0], m[0])

    def said(m):
        if m[0].startswith('"'):
            return m[0]
        camel = re.sub(r"(?<![\w'-])[a-z]\w*[A-Z][\w'-]*", word, m[0])
        return re.sub(r"`[^`]*`", lambda q: WORD.sub(word, q[0]), camel)

    out, at = "", 0
    for m in APART.finditer(text):
        out += WORD.sub(word, text[at : m.start()]) + said(m)
        at = m.end()
    return out + WORD.sub(word, text[at:])


def main(argv):
    root = next((a for a in argv if not a.startswith("--")), ".")
    rows, goals = table(root)
    if "--list" in argv:
        for old, new in rows.items():
            print(old, new, "(also a goal)" if old in goals else "")
        return 0
    for folder, dirs, files in os.walk(os.path.join(root, "crates")):
        dirs[:] = sorted(d for d in dirs if d not in ("out", ".git", "must-fail"))
        for f in sorted(files):
            if not f.endswith((".antt", ".rt")):
                continue
            path = os.path.join(folder, f)
            with open(path) as it:
                text = it.read()
            new = turned(text, rows)
            if new != text:
                with open(path, "w") as it:
                    it.write(new)
    return 0


if __name__ == "__main__":
    raise SystemExit(main(sys.argv[1:]))
