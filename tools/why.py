#!/usr/bin/env python3
"""What the program `run_why` reads and has to print, from vectors of request 1 ("Why is this in the plan?"); in the same form
tools/dock/reasons, from those of request 4 ("Aggregate reasons as in the paper").

    python3 tools/why.py VECTORS OUT       writes OUT/stdin and OUT/stdout

VECTORS has one JSON object a line: `words` and `limit` of a call in the old edition, and `result`, what an implementation that shares nothing with this
repository says of it: {"refused": [number, place]}, or `end` (answer, none or limit), `choices`, `skips`, `why` (for each atom its round and its rule) and, with
an answer, `plan` (a byte for each atom). Where the counts under 01's own reasons are others, they stand in `result01`, which is not used.

A text of `stdin` is the limit and the words in decimal, after its length in bytes, four bytes, low byte first. Of each, `stdout` has two lines: the text
program's line; then `why` and, for each atom that has a round or a rule, the atom, its round and its rule. A table that is refused has no rounds."""
import json
import os
import sys


def text_of(case):
    return " ".join(str(n) for n in [case["limit"]] + case["words"]).encode()


def lines_of(case):
    result = case["result"]
    if "refused" in result:
        number, place = result["refused"]
        return [f"refused {number} {place}", "why"]
    line = f"{result['end']} {result['choices']} {result['skips']}"
    if result["end"] == "answer":
        line += ":" + "".join(f" {i}" for i, byte in enumerate(result["plan"], 1) if byte)
    whys = [(i, r, k) for i, (r, k) in enumerate(result["why"], 1) if r or k]
    return [line, "why" + "".join(f" {i} {r} {k}" for i, r, k in whys)]


def main(vectors, out):
    with open(vectors, encoding="utf-8") as f:
        cases = [json.loads(line) for line in f]
    texts, lines = b"", []
    for case in cases:
        if case.get("edition", 1) != 1 or case.get("cycles", False):
            continue
        text = text_of(case)
        texts += len(text).to_bytes(4, "little") + text
        lines += lines_of(case)
    with open(os.path.join(out, "stdin"), "wb") as f:
        f.write(texts)
    with open(os.path.join(out, "stdout"), "w", encoding="ascii") as f:
        f.write("".join(line + "\n" for line in lines))
    print(f"{len(lines) // 2} cases")


if __name__ == "__main__":
    main(sys.argv[1], sys.argv[2])
