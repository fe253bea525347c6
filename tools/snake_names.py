#!/usr/bin/env python3
"""Spells the repository's own definitions, lemmas, fields and constructors in snake case, once, after port.py.

usage: tools/snake_names.py [--check]      at the top of the repository

A name counts if a file of specs/ or proofs/ declares it, it begins with a small letter, and it has a dash or a capital within.
It turns as a whole word in .antt files, in clauses and `ghost use` items of .rt files, and in must-fail edits, but stays where a file imports that spelling from a library.
A lemma whose snake case another name has, in the repository or in a file that uses it, gets `_lem` behind it; OTHER gives better names. --check writes nothing and lists what would fall together.
"""
import os
import re
import sys

WORD = r"[^\s(){}.;,@\"«»]+"
DECLARED = re.compile(rf"^\s*(?:(?:unfoldable|abbrev|pub|open)\s+)*({WORD})(?:\s*\{{[^{{}}]*\}})*\s+:\s", re.M)
COMMENT = re.compile(r"(?<![^\s(){}.;,])--[^\n]*")
USE = re.compile(r"\buse\s+([^\s;{]+?)\.?(?:\{([^{}]*)\})?(?=[\s;]|$)", re.M)
MADE = re.compile(r"(invariant|decreases)-")
OTHER = {
    "bit-and": "bit_of_and",
    "bit-or": "bit_of_or",
    "some-entry": "has_entry",
    "kinds-begin": "kinds_begun",
    "edit-cells": "cells_of_edits",
    "heads-apart": "apart_heads",
    "none-twice": "once_each",
    "no-critical-edge": "no_critical_edges",
    "idom-smaller": "smaller_idom",
}


def snake(name):
    if name in OTHER:
        return OTHER[name]
    words = re.sub(r"(?<=[a-z0-9])([A-Z])", lambda m: "_" + m[1].lower(), name)
    return re.sub(r"(?<=[^\s-])-(?=[^\s-])", "_", words)


def files(*ends):
    for folder, dirs, names in os.walk("crates"):
        dirs[:] = sorted(d for d in dirs if d != "out")
        for n in sorted(names):
            if n.endswith(ends):
                yield os.path.join(folder, n)


# Lemmas that have the snake case of a definition already.
LEMMAS = ("holds_by", "same_place", "fold_line", "digits_of", "all_named", "clobbers_of")


def read(path):
    with open(path, encoding="utf-8") as f:
        return f.read()


def declared():
    own = set()
    for p in files(".antt"):
        own.update(DECLARED.findall(COMMENT.sub("", read(p))))
    return own


def turned_names(own):
    return {n: snake(n) for n in own if n[0].islower() and not MADE.match(n) and snake(n) != n}


def lent(text, crates):
    """The names that a file imports from a library."""
    out = set()
    for path, items in USE.findall(text):
        steps = path.strip(".").split(".")
        if steps[0] == "Rattle" and len(steps) > 1 and steps[1] in crates:
            continue
        if items:
            for it in items.split(","):
                it = it.strip()
                if it:
                    out.update(w.strip("«»").split(".")[-1] for w in it.split(" as "))
        else:
            out.add(steps[-1])
    return out


def words_of(text):
    return set(re.findall(WORD, text))


def turn(text, table):
    return re.sub(WORD, lambda m: table.get(m[0], m[0]), spanned(text, table))


def spanned(text, table):
    """The text with the names turned that stand between backticks, as comments have them."""
    return re.sub(rf"`({WORD})`", lambda m: "`" + table.get(m[1], m[1]) + "`", text)


CLAUSE = re.compile(r"(?:\b(?:requires|ensures)\b\*?\s*(?:\w+\s*)?|\bghost\s+\w*\s*:?\s*(?:\w+\s*)?=?\s*)\{")


def spans(text):
    """The parts of a .rt file that are antt: `ghost use` items and braces of clauses."""
    for m in re.finditer(r"ghost use[^;]*;", text):
        yield m.start(), m.end()
    for m in CLAUSE.finditer(text):
        depth, i = 1, m.end()
        while depth and i < len(text):
            depth += {"{": 1, "}": -1}.get(text[i], 0)
            i += 1
        yield m.start(), i


def turn_rt(text, table):
    out, at = [], 0
    for a, b in sorted(spans(text)):
        if a < at:
            continue
        out += [text[at:a], turn(text[a:b], table)]
        at = b
    return spanned("".join(out) + text[at:], table)


def bare(text, path):
    """The words of a text that are no part of a longer path."""
    if path.endswith(".antt"):
        text = re.sub(r"(?m)^\s*use [^\s{]+", lambda m: m[0] if "." not in m[0] else m[0].rsplit(".", 1)[1] if not m[0].endswith(".") else "", COMMENT.sub("", text))
        text = re.sub(r"(?<=[\w)])\.[^\s(){}.;,]+", "", text)
    else:
        text = " ".join(text[a:b] for a, b in spans(text))
    return words_of(text)


def with_lemmas(table, own, crates):
    """The table, with `_lem` behind each dashed name that would meet another."""
    taken = {}
    for o, n in table.items():
        taken.setdefault(n, []).append(o)
    clash = {o for n, os_ in taken.items() for o in os_ if "-" in o and (len(os_) > 1 or n in own)}
    for p in files(".antt", ".rt"):
        text = read(p)
        words, others = bare(text, p), lent(text, crates)
        clash |= {o for o, n in table.items() if "-" in o and o in words and n in words and o not in others}
    return {o: n + "_lem" if o in clash and o not in OTHER and not o.endswith("-spec") else n for o, n in table.items()}


def main(check):
    crates = set(os.listdir("crates"))
    own = declared()
    table = with_lemmas(turned_names(own), own, crates)
    said = 0
    for p in list(files(".antt", ".rt", ".edit")):
        text = read(p)
        others = lent(text, crates)
        here = {o: n for o, n in table.items() if o not in others}
        words = bare(text, p) if not p.endswith(".edit") else set()
        found = {o: n for o, n in here.items() if o in words}
        meets = {}
        for o, n in found.items():
            meets.setdefault(n, []).append(o)
        for n, os_ in sorted(meets.items()):
            if n in words or p.endswith(".rt") and re.search(rf"\b{re.escape(n)}:", text) or len(os_) > 1:
                print(f"meets: {p}: {os_} -> {n}")
                said += 1
        if p.endswith(".antt"):
            text = re.sub(r"(?<![\w.'-])(" + "|".join(LEMMAS) + r")(?![\w'-])", r"\1_lem", text)
        if p == "crates/accepted/proofs/Giving.antt":
            text = re.sub(r"\bentry_first\b(?! =)", "entry_first_lem", text)
        new = turn_rt(text, here) if p.endswith(".rt") else turn(text, here)
        if not check and new != read(p):
            with open(p, "w", encoding="utf-8") as f:
                f.write(new)
    print(f"{len(table)} names, {said} meet another")


if __name__ == "__main__":
    main("--check" in sys.argv)
