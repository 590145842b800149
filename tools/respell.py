#!/usr/bin/env python3
"""Respells the repository's own names as today's Rattle spells names: words in snake case, types in camel case.

usage: python3 tools/respell.py            at the top of the repository, once, after port.py

The table, respell.tsv beside this script, has a row for each name: old, a tab, new. What turns: the code of specs/ and proofs/; clauses and `ghost use` items of
src/; a name between backticks in a comment or a page; and a statement's name, which begins with a capital, also outside backticks. A name that a proof file cites
behind `tie.` is one that Rattle makes, and stays. It proves nothing: rt check decides.
"""

import glob
import os
import re

HERE = os.path.dirname(os.path.realpath(__file__))
TABLE = dict(line.rstrip("\n").split("\t") for line in open(os.path.join(HERE, "respell.tsv"), encoding="utf-8"))
WORD = re.compile(r'[^\s(){}.;,@"«»`*]+')
SPAN = re.compile(r"`[^`\n]*`")
CLAUSE = re.compile(r"\b(?:requires|ensures)\b\*?\s*(?:\w+\s*)?\{")
GHOST_USE = re.compile(r"\bghost use\b[^;]*;")


def code(text):
    """Every word of the table, but for those that Rattle makes."""
    return WORD.sub(lambda m: m[0] if text[: m.start()].endswith("tie.") else TABLE.get(m[0], m[0]), text)


def prose(text):
    """The words between backticks, and the names of statements."""
    text = SPAN.sub(lambda m: code(m[0]), text)
    return WORD.sub(lambda m: statement(m[0]), text)


def statement(word):
    bare = word.rstrip(":'’s") if word not in TABLE else word
    for w in (word, bare, word.rstrip(":")):
        if w[:1].isupper() and w in TABLE:
            return TABLE[w] + word[len(w) :]
    return word


def antt(text):
    out = []
    for line in text.split("\n"):
        at = re.search(r"(?<!\S)--", line)
        out.append(code(line[: at.start()]) + prose(line[at.start() :]) if at else code(line))
    return "\n".join(out)


def closing(text, at):
    depth = 1
    while depth:
        depth += (text[at] == "{") - (text[at] == "}")
        at += 1
    return at


def rattle(text):
    out, at = [], 0
    while at < len(text):
        nexts = [m for m in (CLAUSE.search(text, at), GHOST_USE.search(text, at), re.compile(r"//[^\n]*").search(text, at)) if m]
        if not nexts:
            break
        m = min(nexts, key=lambda m: m.start())
        out.append(text[at : m.start()])
        if m[0].startswith("//"):
            out.append(prose(m[0]))
            at = m.end()
        elif m[0].startswith("ghost"):
            out.append(code(m[0]))
            at = m.end()
        else:
            at = closing(text, m.end())
            out.append(code(text[m.start() : at]))
    return "".join(out) + text[at:]


def turn(pattern, how):
    for path in sorted(glob.glob(pattern, recursive=True)):
        if "/out/" in path or not os.path.isfile(path):
            continue
        with open(path, encoding="utf-8") as f:
            before = f.read()
        after = how(before)
        if after != before:
            with open(path, "w", encoding="utf-8") as f:
                f.write(after)


turn("crates/*/specs/**/*.antt", antt)
turn("crates/*/proofs/**/*.antt", antt)
turn("crates/*/src/**/*.rt", rattle)
turn("README.md", prose)
turn("host/**/*.md", prose)
turn("docs/**/*.md", prose)
