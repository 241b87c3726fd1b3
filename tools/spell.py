#!/usr/bin/env python3
"""Brings the repository's own definitions and lemmas to today's spelling: run once, after port.py.

usage: spell.py [--list]      at the top of the repository

A word is in snake case: `cutOf` becomes `cut_of`, and `next-says` `next_says`. A dash stays where a lemma's name begins with a
word of the library for lists, as in `length-joined`. Where a lemma then has the name of a definition, it gets `_lem`.
Only names that the repository declares or binds are turned, in specs/, proofs/, clauses, must-fail edits, and, between
backquotes, in README and docs/. Names of the library and of functions stay, and so do the names of goals in Proof.antt.
"""

import glob
import os
import re
import subprocess
import sys

# the library beside the kit's first page
KIT = os.path.join(os.path.dirname(subprocess.run(["rt", "doc"], stdout=subprocess.PIPE, text=True, check=True).stdout.strip()), "rattle")
WORD = re.compile(r"[A-Za-z][\w'\-]*")
LIBRARY = {"length", "get_or", "set", "drop", "take", "replicate", "map"}
# A lemma about the count of reads that TXN gives, which has its definition's name in snake case.
ALSO = {"read_count": "read_count_lem"}


def read(path):
    with open(path, encoding="utf-8", errors="replace") as it:
        return it.read()


def parts(text, mark):
    """The text in pieces, each with whether it is a comment."""
    out, at = [], 0
    for m in re.finditer(mark + r"[^\n]*", text):
        out += [(text[at : m.start()], False), (m.group(), True)]
        at = m.end()
    return out + [(text[at:], False)]


def code(path):
    mark = "--" if path.endswith(".antt") else "//"
    return "".join(t for t, is_comment in parts(read(path), mark) if not is_comment)


def files(*kinds):
    return sorted(p for k in kinds for p in glob.glob(k, recursive=True) if "/out/" not in p)


def snake(name):
    name = re.sub(r"(?<=[a-z0-9])([A-Z])", lambda m: "_" + m.group(1).lower(), name)
    first, *rest = name.split("-")
    return first + "".join(("-" if first in LIBRARY and i == 0 else "_") + it for i, it in enumerate(rest))


def is_ours(word):
    # `\nSTEP` stands in a string
    return word not in ("nITEM", "nSTEP", "nTXN") and word[0].islower() and ("-" in word or re.search(r"[a-z0-9][A-Z]", word)) and not re.match(r"(the|loop|then|else|in|if|args|new)-", word)


def turned_words(antt):
    kit = set()
    for p in glob.glob(KIT + "/**/*.antt", recursive=True):
        kit |= set(WORD.findall(code(p)))
    own = set()
    for p in antt:
        text = code(p)
        made = set()
        if p.endswith("/Proof.antt"):
            made |= set(re.findall(r"^([A-Za-z][\w'\-]*) : (?:tie|needs?)\.", text, re.M))
            made |= {w for w in WORD.findall(text) if re.search(r"-(spec|meets|walks|def|thm|arg\d*)$", w)}
        own |= {w for w in re.findall(r"(?<![\w'.\-◌])([A-Za-z][\w'\-]*)", text) if is_ours(w)} - made
    turned = {w: snake(w) for w in own - kit if snake(w) != w}
    turned.update(ALSO)
    by = {}
    for w in sorted(turned):
        by.setdefault(turned[w], []).append(w)
    for to, words in by.items():
        if len(words) > 1:
            for w in words:
                if "-" in w:
                    turned[w] = to + "_lem"
    if len(set(turned.values())) != len(turned):
        raise SystemExit("two names fall together")
    return turned


def main():
    antt = files("crates/*/specs/**/*.antt", "crates/*/proofs/**/*.antt")
    turned = turned_words(antt)
    if "--list" in sys.argv:
        for w in sorted(turned):
            print(w, turned[w])
        return
    one = re.compile(r"(?<![\w'\-])(" + "|".join(sorted(map(re.escape, turned), key=len, reverse=True)) + r")(?![\w'\-])")
    turn = lambda text: one.sub(lambda m: turned[m.group(1)], text)
    quoted = lambda text: re.sub(r"`[^`\n]*`", lambda m: turn(m.group()), text)
    for p in antt + files("crates/*/src/**/*.rt", "crates/*/must-fail/*.edit", "README.md", "docs/*.md"):
        old = read(p)
        if p.endswith(".md"):
            new = quoted(old)
        elif p.endswith(".edit"):
            new = turn(old)
        else:
            new = "".join(quoted(t) if is_comment else turn(t) for t, is_comment in parts(old, "--" if p.endswith(".antt") else "//"))
        if new != old:
            with open(p, "w", encoding="utf-8") as it:
                it.write(new)
            print(p)


if __name__ == "__main__":
    main()
