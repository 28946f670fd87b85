#!/usr/bin/env python3
"""Respells the repository's own definitions, lemmas, fields and variables in the way of today's Rattle.

usage: tools/respell.py [--list]     at the top, once, after the kit's port/port.py; --list only prints what would change

A word that is no type is in snake case: eachFrom is each_from, right-length is right_length, N-grows is N_grows. Types
keep their names, and so do the rules' own letters (N, D, S, R, O, B, F), since the small letters are variables. Names
of the library, of the language and of src/ keep their spelling: a word changes only if some file of specs/ or proofs/
defines or binds it, and not in a file that takes it from elsewhere. Names that Rattle makes in proofs/F/ are left.
"""

import os
import re
import sys

# A word, with the dashes inside it.
WORD = re.compile(r"(?<![A-Za-z0-9_'-])[A-Za-z][A-Za-z0-9_]*(?:-[A-Za-z0-9_]+)*'*(?![A-Za-z0-9_])")
# Lemmas that have a definition's name now: where a lemma would have its function's name, it ends in _lem. Those with a
# dash are found; these had no dash any more.
LEMMAS = "cell_in field_in last_line names_in no_place one_more past_end same_bytes too_many too_wide".split()


def files(root, folder, endings):
    for path, dirs, names in os.walk(os.path.join(root, "crates")):
        dirs[:] = sorted(d for d in dirs if d != "out")
        parts = os.path.relpath(path, os.path.join(root, "crates")).split(os.sep)
        if len(parts) >= 2 and parts[1] in folder:
            for name in sorted(names):
                if name.endswith(endings):
                    yield os.path.join(path, name)


def read(path):
    with open(path, encoding="utf-8") as f:
        return f.read()


def hand_written(path):
    """Whether a file is one of definitions or lemmas, and not the proof of a function, which has a folder of its own."""
    return path.endswith(".antt") and os.path.basename(os.path.dirname(path)) in ("specs", "proofs")


def old_form(word):
    camel = word[:1].islower() and re.search(r"[a-z0-9][A-Z]", word) is not None
    return WORD.fullmatch(word) is not None and ("-" in word or camel)


def snake(word):
    parts = []
    for part in word.split("-"):
        if re.search(r"[a-z]", part):
            part = re.sub(r"(?<=[a-z0-9])([A-Z])", lambda m: "_" + m.group(1).lower(), part)
        parts.append(part)
    return "_".join(parts)


def without_comments(text):
    return re.sub(r"(?m)^\s*--.*$", "", text)


def imports(text, own):
    """The words that a file takes from elsewhere: from the library, or from what Rattle makes."""
    words = set()
    for m in re.finditer(r"use ([^\s.{;]+(?:\.[^\s.{;]+)*)\.\{([^}]*)\}", text):
        path = m.group(1).split(".")
        ours = path[0] == "Rattle" and path[1] in own and len(path) > 2 and path[2] in ("specs", "proofs") and "declared" not in path
        if not ours:
            words |= {w.strip().split(" as ")[0] for w in m.group(2).split(",")}
    return words


def defined(text):
    """The words that a file defines or binds."""
    words = set()
    for m in re.finditer(r"(?m)^\s*(?:(?:abbrev|unfoldable|pub|let)\s+)*([^\s(){}:]+)((?: [^\s(){}:]+)*) : ", text):
        words |= {m.group(1)} | set(m.group(2).split())
    for m in re.finditer(r"[({]([^\s(){}:,]+(?: [^\s(){}:,]+)*) : ", text):
        words |= set(m.group(1).split())
    for m in re.finditer(r"\b(?:let|in) ([^\s(){}:=]+) (?::|=) ", text):
        words.add(m.group(1))
    for m in re.finditer(r"(?:let|λ) \(([^():=]+)\)", text):
        words |= {w.strip() for w in m.group(1).split(",")}
    for m in re.finditer(r"λ ([^().λ]+)\. ", text):
        words |= set(m.group(1).split())
    return words


def table(root):
    """What each word becomes."""
    own = set(os.listdir(os.path.join(root, "crates")))
    words, others = set(), set()
    for path in files(root, ("specs", "proofs"), ".antt"):
        if hand_written(path):
            here = defined(without_comments(read(path)))
            words |= {w for w in here if old_form(w)}
            others |= {w for w in here if not old_form(w)}
    taken = {snake(w) for w in words if "-" not in w} | others
    names = {w: snake(w) + ("_lem" if "-" in w and snake(w) in taken else "") for w in sorted(words)}
    return names | {w: w + "_lem" for w in LEMMAS if w in taken}, own


def respell(text, names, keep):
    """Each word of text that names turns, but for those of keep and of the paths of modules."""

    def one(m):
        word = m.group(0)
        return names[word] if word in names and word not in keep else word

    def line(row):
        path = re.match(r"((?:ghost |pub )*use \S+?\.\{)(.*)", row)
        return path.group(1) + WORD.sub(one, path.group(2)) if path else WORD.sub(one, row)

    return "\n".join(line(row) for row in text.split("\n"))


def made(text):
    """The words by which a function's proof names what Rattle makes: its goals, and the steps of its code."""
    words = set(re.findall(r"(?m)^(\S+) : tie\.", text)) | set(re.findall(r"(?m)^pub (\S+-spec) : ", text))
    return words


def taken_in(text):
    """The words that a file imports."""
    return {w.strip() for m in re.finditer(r"(?m)^use \S+?\.\{([^}]*)\}", text) for w in m.group(1).split(",")}


def main():
    root = os.path.join(os.path.dirname(os.path.realpath(__file__)), "..")
    names, own = table(root)
    if "--list" in sys.argv:
        for old, new in names.items():
            print(old, new)
        return
    changed = 0
    for path in files(root, ("specs", "proofs", "src"), (".antt", ".rt")):
        text = read(path)
        keep = imports(text, own)
        if not hand_written(path):
            keep |= made(text) | (set(LEMMAS) - taken_in(text))
        new = respell(text, names, keep)
        if new != text:
            changed += 1
            with open(path, "w", encoding="utf-8") as f:
                f.write(new)
    print(f"respell: {len(names)} words, {changed} files")


if __name__ == "__main__":
    main()
