#!/usr/bin/env python3
"""Respells the repository's own definitions and lemmas: words in snake case, types in camel case. It goes by the table tools/respell.tsv.

usage: tools/respell.py            at the top, once, behind the port of the whole repository to another Rattle (docs/PORT.md)

It turns whole words: in .antt files everywhere but in comments' prose, in .rt files in clauses, imports and comments, in must-fail edits in their texts, and in
pages in code spans. Functions of src/, exported names and strings keep their names. In a comment's prose and in pages only a name in camel case turns.
"""

import glob
import os
import re

HERE = os.path.dirname(os.path.realpath(__file__))
WORD = re.compile(r'[^\s(){}.;:,@"«»]+|:+')
CAMEL = re.compile(r"[a-z][\w₀-₉']*")
# fields of records: the only dashed names that stand behind a dot in a function's proof
FIELDS = {"open-end", "storing-words", "storing-floats", "by-mov", "by-movzx", "so-many"}
COMMENT = re.compile(r"(^|(?<=\s))--[^\n]*|//[^\n]*", re.M)
SPAN = re.compile(r"```.*?```|`[^`\n]+`", re.S)


def table():
    with open(os.path.join(HERE, "respell.tsv"), encoding="utf-8") as f:
        return dict(line.rstrip("\n").split("\t") for line in f if line.strip())


def turn(text, names, dashed=True, proof=False):
    def word(m):
        name = m[0]
        if name not in names or (not dashed and "-" in name):
            return name
        if proof and "-" in name and text[m.start() - 1 : m.start()] == "." and name not in FIELDS:
            return name
        return names[name]

    return WORD.sub(word, text)


def beside_comments(text, code, comment):
    out, at = [], 0
    for m in COMMENT.finditer(text):
        out += [code(text[at : m.start()]), comment(m[0])]
        at = m.end()
    return "".join(out + [code(text[at:])])


def files(pattern):
    return [p for p in sorted(glob.glob(pattern, recursive=True)) if "/out/" not in p and os.path.isfile(p)]


def rewrite(path, how):
    with open(path, encoding="utf-8") as f:
        old = f.read()
    new = how(old)
    if new != old:
        with open(path, "w", encoding="utf-8") as f:
            f.write(new)


def main():
    os.chdir(os.path.dirname(HERE))
    names = table()
    prose = lambda t: turn(t, names, dashed=False)
    for path in files("crates/*/specs/**/*.antt") + files("crates/*/proofs/**/*.antt"):
        code = lambda t, p=path.endswith("/Proof.antt"): turn(t, names, proof=p)
        rewrite(path, lambda t: beside_comments(t, code, prose))
    for path in files("crates/*/src/**/*.rt"):
        rewrite(path, lambda t: beside_comments(t, lambda c: turn(c, names), prose))
    for path in files("crates/*/must-fail/**/*.edit"):
        rewrite(path, lambda t: turn(t, names, dashed="antt" in t))
    for path in ["README.md"] + files("docs/*.md") + files("oracle/*.md") + files("vectors/*.md"):
        rewrite(path, lambda t: SPAN.sub(lambda m: turn(m[0], names, dashed=False), t))


main()
