#!/usr/bin/env python3
"""Whether what the documents cite is there: tools/cited.py FILE..  (default: docs/PROVED.md, docs/CONTRACTS.md)

In these pages a path under crates/ in backquotes, as `search/proofs/Base.antt`, is followed by names in backquotes that stand in that file, up to the next path,
the end of the table's cell or of the sentence. Every path must be a file, and every such name must occur in it. Standard library only."""
import os
import re
import sys

ROOT = os.path.dirname(os.path.dirname(os.path.abspath(__file__)))
FILE = re.compile(r"^[a-z_]+/(specs|proofs|src)/\S+\.(antt|rt)$")
NAME = re.compile(r"^[^\s/]+$")


def occurs(name, text):
    plain = name.split("::")[-1]
    return re.search(r"(?<![^\s(){}.,;:`])" + re.escape(plain) + r"(?![^\s(){}.,;:`<])", text) is not None


def faults(page):
    with open(page, encoding="utf-8") as f:
        lines = f.read().split("\n")
    fenced = False
    for number, line in enumerate(lines, 1):
        if line.startswith("```"):
            fenced = not fenced
        if fenced:
            continue
        for cell in re.split(r"(?<!\\)\|", line):
            text = None
            for piece in re.finditer(r"`([^`]+)`|([;.])(?=\s|$)", cell):
                word = piece.group(1)
                if word is None:
                    if piece.group(2) == ".":
                        text = None
                    continue
                if FILE.match(word):
                    path = os.path.join(ROOT, "crates", word)
                    if os.path.isfile(path):
                        with open(path, encoding="utf-8") as f:
                            text = f.read()
                    else:
                        text = None
                        yield number, f"no file crates/{word}"
                    at = word
                elif text is not None and NAME.match(word) and not occurs(word, text):
                    yield number, f"no {word} in crates/{at}"


def main(pages):
    pages = pages or [os.path.join(ROOT, "docs", n) for n in ("PROVED.md", "CONTRACTS.md")]
    bad = [(p, n, why) for p in pages for n, why in faults(p)]
    for p, n, why in bad:
        print(f"{os.path.relpath(p, ROOT)}:{n}: {why}")
    return 1 if bad else 0


if __name__ == "__main__":
    sys.exit(main(sys.argv[1:]))
