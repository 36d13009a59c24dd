#!/usr/bin/env python3
"""The texts of the program `run_plain`, and the lines that it must print for them.

    python3 tools/plain.py LINES VECTORS OUT     writes OUT/stdin and OUT/stdout

LINES is tools/lines.txt: an input on one line and on the next what 01's definition prints, the plain search's
line after ` | plain: `. VECTORS has cases of request 5, a JSON object a line: words, limit, edition, cycles and
the right result; those of the old edition without head cycles are taken.
Neither was made by the code that it tests.

stdin: one text after the other, each after its length in bytes, four bytes, low byte first. stdout: one line a
text. The program prints one more line, `differs`, where the two engines differ; none is expected.
"""

import json
import sys

PLAIN = b" | plain: "


def from_lines(path):
    with open(path, "rb") as file:
        lines = file.read().split(b"\n")
    pairs = zip(lines[0::2], lines[1::2])
    return [(text + b"\n", expected.split(PLAIN)[1].decode()) for text, expected in pairs if PLAIN in expected]


def line_of(result):
    if "refused" in result:
        return "refused %d %d" % tuple(result["refused"])
    line = "%s %d 0" % (result["end"], result["choices"])
    if result["end"] != "answer":
        return line
    return line + ":" + "".join(" %d" % atom for atom, byte in enumerate(result["plan"], 1) if byte == 1)


def from_vectors(path):
    pairs = []
    with open(path) as file:
        for case in map(json.loads, file):
            if case["edition"] == 1 and not case["cycles"]:
                text = " ".join(str(number) for number in [case["limit"]] + case["words"])
                pairs.append((text.encode() + b"\n", line_of(case["result"])))
    return pairs


def main(lines, vectors, out):
    pairs = from_lines(lines) + from_vectors(vectors)
    with open(out + "/stdin", "wb") as file:
        for text, _ in pairs:
            file.write(len(text).to_bytes(4, "little") + text)
    with open(out + "/stdout", "w") as file:
        for _, expected in pairs:
            file.write(expected + "\n")


if __name__ == "__main__":
    main(*sys.argv[1:])
