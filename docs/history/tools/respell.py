#!/usr/bin/env python3
"""Brings the repository's own names in contracts, definitions and proofs to snake case.

usage: python3 tools/respell.py [FOLDER]      FOLDER: the top of a checkout (default: the one that has this script)

The table beside this script has a row for each name: the old spelling, a tab, the new one. Only whole
words turn, each once, in one pass. A tree where none of the old spellings with a dash or a capital
stands is left alone, since two of the new spellings were old ones of something else. It turns
  .antt    code, and the words of comments that the file's code has too
  .rt      the same, but for strings; Rust's own names never have a dash or a capital inside
  .md      spans between backticks and fenced blocks
Names that the prover makes keep their spelling: those behind `goal.`, and in a function's own proof
files the first name behind `c.`, `l.`, `w.` and `g.`.
"""
import os
import re
import sys

HERE = os.path.dirname(os.path.realpath(__file__))
WORD = re.compile(r"[^\s(){}.;,@\"«»`]+")
HEAD = re.compile(r"(?<![^\s(){};,@\"«»`])(?:goal|[clwg])\.(?:(?:args|initial|fn|new|auto|ranges|now)\.)?$")
MADE = ("Answers.antt", "Invariants.antt", "Proof.antt")


def table():
    with open(os.path.join(HERE, "respelled.tsv"), encoding="utf-8") as f:
        return dict(line.rstrip("\n").split("\t") for line in f if line.strip())


def turned(text, names, made=frozenset(), heads=False):
    """The text with each word of the table turned; `made` has words that stay."""

    def one(m):
        word = m[0]
        if word in made or (heads and "-" in word and HEAD.search(text, 0, m.start()) and text[m.start() - 1] == "."):
            return word
        return names.get(word, word)

    return WORD.sub(one, text)


def split(text, comment):
    """The text as code, strings and comments, in order: pairs of a kind and a part."""
    part = re.compile(r'"(?:\\.|[^"\\\n])*"|(?:(?<=\s)|^)' + comment + r"[^\n]*", re.M)
    at = 0
    for m in part.finditer(text):
        yield "code", text[at : m.start()]
        yield ("text" if m[0].startswith('"') else "comment"), m[0]
        at = m.end()
    yield "code", text[at:]


def source(path, text, names):
    heads = path.endswith(MADE)
    made = set(re.findall(r"goal\.([^\s(){}.;,@\"«»]+)", text)) if heads else set()
    parts = list(split(text, "--" if path.endswith(".antt") else "//"))
    here = {w for kind, part in parts if kind == "code" for w in WORD.findall(part)}
    known = {w: n for w, n in names.items() if w in here}
    # a comment's signs are no part of a word
    out = []
    for kind, part in parts:
        if kind == "code":
            out.append(turned(part, names, made, heads))
        elif kind == "comment":
            out.append(re.sub(r"[\w'-]+", lambda m: known.get(m[0], m[0]), part))
        else:
            out.append(part)
    return "".join(out)


def page(text, names):
    spans = re.compile(r"^```.*?^```|`[^`\n]+`", re.S | re.M)
    return spans.sub(lambda m: turned(m[0], names), text)


def is_turned(top, names):
    """Whether no file of the crates has an old spelling that could be no new one."""
    odd = {w for w in names if not re.fullmatch(r"[a-z0-9_']+", w)}
    for folder, folders, files in os.walk(os.path.join(top, "crates")):
        folders[:] = [f for f in folders if f != "out"]
        for file in files:
            if file.endswith(".antt") and not file.endswith(MADE):
                with open(os.path.join(folder, file), encoding="utf-8") as f:
                    parts = split(f.read(), "--")
                    if any(odd & set(WORD.findall(part)) for kind, part in parts if kind == "code"):
                        return False
    return True


def main(top):
    names, count = table(), 0
    if is_turned(top, names):
        print("respell: nothing to do")
        return
    for folder, folders, files in os.walk(top):
        folders[:] = sorted(f for f in folders if f not in (".git", "out", "tools"))
        for file in sorted(files):
            path = os.path.join(folder, file)
            if not file.endswith((".antt", ".rt", ".md")):
                continue
            with open(path, encoding="utf-8") as f:
                old = f.read()
            new = page(old, names) if file.endswith(".md") else source(path, old, names)
            if new != old:
                count += 1
                with open(path, "w", encoding="utf-8") as f:
                    f.write(new)
    print(f"respell: {count} files turned")


if __name__ == "__main__":
    main(sys.argv[1] if len(sys.argv) > 1 else os.path.dirname(HERE))
