#!/usr/bin/env python3
"""Respells the repository's own names of specifications and proofs: definitions, lemmas and fields in snake case.

usage: python3 tools/port/respell.py [ROOT]

Run it once, on what the kit's port.py has turned, before any edit by hand.

names.tsv beside this file has a row for each name: old, a tab, new. Turned are whole words alone: in .antt files the
code, and what a comment has in backquotes or spells with a capital inside; in .rt files all but strings and comments
(a function of src/ has neither dashes nor inner capitals); in must-fail edits and those of tools/edits the texts; in
documents what stands in backquotes.
"""

import os
import re
import sys

HERE = os.path.dirname(os.path.realpath(__file__))
WORD = re.compile(r'[^\s(){}.;,@"«»`]+')
# A string, a comment to the line's end, a block comment.
QUIET = re.compile(r'"(?:[^"\\\n]|\\.)*"|(?<![^\s(){}.;,@"«»])--[^\n]*|\{-.*?-\}', re.S)
RUST = re.compile(r'//[^\n]*|"(?:[^"\\]|\\.)*"', re.S)
SPAN = re.compile(r"`[^`\n]*`")
INNER = re.compile(r"[a-z]+[a-z0-9]*[A-Z][A-Za-z0-9]*\Z")
# The one lemma whose old name is now its definition's: in .antt alone, and not as a step of a path, which is the call's.
LEMMA = "walk_step"


def names():
    with open(os.path.join(HERE, "names.tsv"), encoding="utf-8") as f:
        return dict(line.rstrip("\n").split("\t") for line in f)


TABLE = names()


def turned(text, behind=""):
    """The words of a text by the table; `behind` names endings that stay behind a dot."""

    def one(m):
        w = m[0]
        before = text[m.start() - 1 : m.start()]
        if w == LEMMA:
            return w
        if before == "." and behind and w.endswith(behind):
            return w
        return TABLE.get(w, w)

    return WORD.sub(one, text)


def comment(text):
    text = SPAN.sub(lambda m: "`" + turned(m[0][1:-1]) + "`", text)
    return WORD.sub(lambda m: TABLE.get(m[0], m[0]) if INNER.match(m[0]) else m[0], text)


def parts(text, quiet, code, still):
    out, at = [], 0
    for m in quiet.finditer(text):
        out += [code(text[at : m.start()]), still(m[0])]
        at = m.end()
    return "".join(out + [code(text[at:])])


def antt(text, path):
    behind = "-is" if path.endswith("/Proof.antt") else ""

    def code(t):
        t = re.sub(r"(?<![.\w-])" + LEMMA + r"(?![\w.-])", TABLE[LEMMA], t)
        return turned(t, behind)

    if "/proofs/" not in path or path.endswith("/Proof.antt"):
        code = lambda t: turned(t, behind)
    return parts(text, QUIET, code, lambda t: t if t.startswith('"') else comment(t))


def rt(text, _):
    return parts(text, RUST, turned, lambda t: t if t.startswith('"') else comment(t))


def edit(text, _):
    def line(t):
        return re.sub(r"^(old|new): (.*)$", lambda m: m[1] + ": " + turned(m[2]), t)

    return "\n".join(map(line, text.split("\n")))


def document(text, _):
    return SPAN.sub(lambda m: "`" + turned(m[0][1:-1]) + "`", text)


KINDS = {".antt": antt, ".rt": rt, ".edit": edit, ".md": document}


def files(root):
    for top in ("crates", "tools/edits", "docs"):
        for folder, dirs, found in os.walk(os.path.join(root, top)):
            dirs[:] = [d for d in dirs if d not in ("out", "unfinished")]
            yield from (os.path.join(folder, f) for f in sorted(found))
    yield os.path.join(root, "README.md")


def main(root):
    count = 0
    for path in files(root):
        turn = KINDS.get(os.path.splitext(path)[1])
        if turn is None or os.path.basename(path) == "PORT.md":
            continue
        with open(path, encoding="utf-8") as f:
            old = f.read()
        new = turn(old, path)
        if new != old:
            count += 1
            with open(path, "w", encoding="utf-8") as f:
                f.write(new)
    print(f"respell: {count} files changed")


if __name__ == "__main__":
    main(sys.argv[1] if len(sys.argv) > 1 else os.path.join(HERE, "..", ".."))
