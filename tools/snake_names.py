#!/usr/bin/env python3
"""Respells the repository's own definitions and lemmas as the library's are: words in snake case, a dash only between
two names of definitions (`length-take`, but `who_loses`), a prime as an apostrophe. Facts, types and modules keep their
capitals, and functions of src/ their names.

usage: tools/snake_names.py [--list]      in the repository's top folder, once, behind the kit's own script

Files below crates/ (.rt, .antt, .edit), the pages and the test scripts are rewritten in place. Nothing is written where
two names would fall together: the script then says which, and stops. --list prints the names alone.
"""
import collections
import glob
import os
import re
import sys

# One word of a proof file, of a clause or of a page's code.
WORD = re.compile(r"(?:\w|['′?-])+")
HEAD = re.compile(
    r"^(?: +pub |(?:(?:abbrev|unfoldable) )?(?:pub )?)(?:(record|data) )?([^\s:(){}=,;`]+)(?= [^=\n]*:(?!:)| :)", re.M)
# Names by which the kit asks for a proof, and which stay as it spells them.
MADE = re.compile(r"^(?:loop|returns|invariant|decreases|array_read|array-read|overflow|slice|call|main)(?:-|$)")
# A lemma with the name that a definition now gets, and two names that stand within others.
BY_HAND = {"numbers_of": "numbers_of_lem", "byAnswers": "by_answers", "onPedal": "on_pedal"}
# Words of the library that lemmas speak of.
LIBRARY = {"length", "take", "drop", "map", "set", "get_or", "replicate", "append", "filter", "reverse", "sum"}


def proof_files():
    patterns = ("crates/*/specs/**/*.antt", "crates/*/proofs/**/*.antt")
    for path in sorted(path for pattern in patterns for path in glob.glob(pattern, recursive=True)):
        if os.sep + "out" + os.sep not in path:
            yield path


def by_hand(path):
    """A proof that walks a function: what it declares is named by the kit."""
    return os.path.basename(path) in ("Proof.antt", "Answers.antt", "Invariants.antt")


def declared():
    """The names that are declared, and whether as a type."""
    names, functions = collections.defaultdict(set), set()
    for path in proof_files():
        with open(path, encoding="utf-8") as f:
            text = f.read()
        for kind, name in HEAD.findall(text):
            if kind or name.startswith("◌") or "◌" in name:
                continue
            names[name].add(path)
            if "/specs/" in path and "-" not in name:
                functions.add(name)
    return names, functions


def words(name):
    """A name in words: at each dash and underscore, and before each capital within it."""
    return re.sub(r"(?<=[a-z0-9])([A-Z])", lambda m: "_" + m.group(1).lower(), name)


def respelled(name, known):
    name = name.replace("′", "'")
    if not re.match(r"[a-z]", name):
        return name
    parts = words(name).split("-")
    out, i, named = "", 0, False
    while i < len(parts):
        j = next((j for j in range(len(parts), i, -1) if "_".join(parts[i:j]) in known), None)
        piece = "_".join(parts[i:j]) if j else parts[i]
        joint = "" if not out else "-" if named and j else "_"
        out, named, i = out + joint + piece, named or bool(j), j or i + 1
    return out


def renamings():
    names, functions = declared()
    known = {words(f) for f in functions} | LIBRARY
    table = dict(BY_HAND)
    for name, paths in names.items():
        if MADE.match(name) or (all(by_hand(p) for p in paths) and not re.search(r"[a-z][A-Z]", name)):
            continue
        new = respelled(name, known)
        if new != name:
            table[name] = new
    taken = {new for old, new in table.items() if "-" not in old} | {name for name in names if name not in table}
    return {old: new + "_lem" if "-" in old and new in taken else new for old, new in table.items()}


def turned(text, table):
    return WORD.sub(lambda m: table.get(m.group(0), m.group(0)), text)


def targets():
    for pattern in ("crates/*/**/*.rt", "crates/*/**/*.antt", "crates/*/must-fail/*.edit"):
        for path in sorted(glob.glob(pattern, recursive=True)):
            if os.sep + "out" + os.sep not in path:
                yield path


def pages():
    yield "README.md"
    yield from sorted(glob.glob("docs/*.md"))
    yield from sorted(p for p in glob.glob("tests/*") if os.path.isfile(p))


def in_code(text, table):
    """A page's words between backticks, but for paths, whose last part alone may be one."""
    def word(m):
        path = m.string[m.end():m.end() + 1] == "/" or m.string[m.start() - 1:m.start()] == "/"
        return m.group(0) if path else table.get(m.group(0), m.group(0))
    return re.sub(r"`[^`\n]+`", lambda code: WORD.sub(word, code.group(0)), text)


def fallen_together(table):
    """Files in which a new name is a word already: a line for each."""
    said = []
    texts = {p: open(p, encoding="utf-8").read() for p in targets() if p.endswith(".antt") and not by_hand(p)}
    for path, text in texts.items():
        bare = re.sub(r"--.*", "", text)
        there = set(WORD.findall(re.sub(r"\.(?:\w|['′?-])+", "", bare)))
        for old in there & set(table):
            if table[old] in there - set(table):
                said.append(f"{path}: {old} would be {table[old]}, which stands there")
    back = collections.defaultdict(set)
    for old, new in table.items():
        back[new].add(old)
    said += [f"{' and '.join(sorted(olds))} would both be {new}" for new, olds in sorted(back.items()) if len(olds) > 1]
    return said


def main():
    table = renamings()
    if "--list" in sys.argv:
        print("\n".join(f"{old} {new}" for old, new in sorted(table.items())))
        print("\n".join(fallen_together(table)))
        return 0
    said = fallen_together(table)
    if said:
        print("\n".join(said))
        return 1
    for paths, turn in ((targets(), turned), (pages(), in_code)):
        for path in paths:
            with open(path, encoding="utf-8") as f:
                text = f.read()
            new = turn(text, table)
            if new != text:
                with open(path, "w", encoding="utf-8") as f:
                    f.write(new)
    print(f"{len(table)} names respelled")
    return 0


if __name__ == "__main__":
    sys.exit(main())
