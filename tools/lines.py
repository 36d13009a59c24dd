#!/usr/bin/env python3
"""The texts of the gate: inputs of the text program, and the lines that it must print for them.

    python3 tools/lines.py LINES EDGES OUT BASELINE     writes OUT/texts.bin and OUT/texts.stdout

LINES has an input on one line and on the next, after `= `, what 01's definition prints (what stands after
` | plain:` is for other uses and is dropped). Its lines come from an implementation that shares nothing with this
repository; with request 4 the counts of seven of them became others, and these are BASELINE's (`check relined`), which
agrees with that implementation on request 4's own vectors and, with 01's reasons, on the seven as they were. EDGES has tables and texts at 01's edges in the same way, said in words
and in short forms that it explains. To these come 01's example and cases, further texts at the edges of what a number
is, and some larger tables, for which BASELINE (bench/src/check.rs built) prints the line.

texts.bin, read by the program `run_texts`: one text after the other up to the end of the file, each after its
length in bytes, four bytes, low byte first. texts.stdout has one line a text.
"""

import random
import re
import subprocess
import sys

ZERO = b"0 0 0"


def from_lines(path):
    with open(path, "rb") as file:
        lines = file.read().split(b"\n")
    pairs = []
    for text, expected in zip(lines[0::2], lines[1::2]):
        assert expected.startswith(b"= ")
        pairs.append((text + b"\n", expected[2:].split(b" | ")[0].decode()))
    return pairs


def expanded(line):
    """A line of EDGES with its short forms written out, as bytes."""
    counted = lambda part, i: re.sub(r"#(?:\+(\d+))?", lambda sign: str(i + int(sign.group(1) or 0)), part)
    line = re.sub(r"\{([^}]*)\}\*(\d+)", lambda m: " ".join(counted(m.group(1), i) for i in range(1, int(m.group(2)) + 1)), line)
    line = re.sub(r"\[([^]]*)\]\*(\d+)", lambda m: m.group(1) * int(m.group(2)), line)
    named = {"n": "\n", "r": "\r", "t": "\t"}
    line = re.sub(r"\\(?:x([0-9a-f]{2})|([nrt]))", lambda m: named[m.group(2)] if m.group(2) else chr(int(m.group(1), 16)), line)
    return line.encode("latin-1")


def from_edges(path):
    with open(path, encoding="ascii") as file:
        lines = [line for line in file.read().split("\n") if line and not line.startswith("# ")]
    pairs = []
    for text, expected in zip(lines[0::2], lines[1::2]):
        assert expected.startswith("= ") and not text.startswith("= "), text
        pairs.append((expanded(text), expanded(expected[2:]).decode()))
    return pairs


def example():
    table = b"8 0 8  2 1 2 0 0 0  2 3 4 0 0 0  2 5 6 0 0 0  2 7 8 0 0 0\n"
    table += b"0 3 1 5 7 0 0  0 3 1 5 8 0 0  0 3 1 6 7 0 0  0 3 1 6 8 0 0\n"
    return [(b"100 " + table, "answer 6 1: 2 3 5 7"), (b"6 " + table, "answer 6 1: 2 3 5 7"),
            (b"5 " + table, "limit 5 1")]


def cases():
    """01's cases A to N, with limit 100 where it names none."""
    loop = "2 0 3  2 1 2 0 0 0  1 1 1 2 0 0  1 2 1 1 0 0"
    three = "3 1  %s 1 %s 2 %s 1 1 2  3  1 1 0 0 0  1 2 0 0 0  1 3 0 0 1 1"
    least = "2 1  2 1 3 1 5 1  1  1 2 0 0 1 %s"
    pairs = [("0 0 0 0", "answer 0 0:"), ("100 1 0 1  1 1 0 1 1 0", "none 1 0"), ("0 1 0 1  1 1 0 1 1 0", "limit 0 0")]
    pairs += [("100 2 0 2  1 1 1 2 0 0  1 2 1 1 0 0", "answer 1 0:"), ("100 2 0 1  2 1 2 0 0 0", "answer 1 0: 1")]
    pairs += [("100 " + loop, "refused 8 1")]
    pairs += [("100 " + three % (0, 1, 1), "answer 0 0: 1 2 3"), ("100 " + three % (0, 2, 1), "answer 0 0: 1 2")]
    pairs += [("100 " + least % 1, "answer 0 0:"), ("100 " + least % -1, "answer 0 0: 2")]
    pairs += [("100 1 1  0 1 0 1 1 1  1  1 1 0 0 1 1", "refused 9 1")]
    pairs += [("100 " + three % (1, 65535, 65535), "answer 0 0: 1 2 3"), ("100 " + three % (1, 65536, 65535), "answer 0 0: 1 2")]
    pairs += [("100", "refused 2 0"), ("100 257", "refused 4 0"), ("100 0 0 0 0", "refused 3 3")]
    pairs += [("100 256 0 0", "answer 0 0:"), ("100 0 0 1 0 0 0 0", "none 0 0")]
    pairs += [("100 1 0 1 1 2 0 0 0", "refused 5 4"), ("100 2 0 1 2 2 1 0 0 0", "refused 6 5")]
    return [(text.encode() + b"\n", expected) for text, expected in pairs]


def edges():
    good = "answer 0 0:"
    pairs = [(b"", "refused 12 0"), (b" \n \n", "refused 12 0"), (b"0", "refused 2 0"), (b"7\n", "refused 2 0")]
    pairs += [(limit + b" " + ZERO, good) for limit in (b"0", b"00", b"-0", b"-00", b"4294967295", b"0000000004294967295")]
    bad = (b"-1", b"4294967296", b"-", b"--1", b"+1", b"1-", b"1a", b"x", b"\t1", b"1\t", b"1\r", b"1\x00", b"\xb2", b"1.0",
           b"18446744073709551616", b"18446744073709551617", b"99999999999999999999999999", b"-4294967296", b"0x1", b"1,")
    pairs += [(limit + b" " + ZERO, "refused 12 0") for limit in bad]
    outside = (b"2147483648", b"-2147483649", b"4294967296", b"4294967297", b"-4294967296", b"18446744073709551616",
               b"-18446744073709551616", b"999999999999999999999", b"-", b"--0", b"0-", b"+0", b"0\t", b"0\r", b"\x00", b"\x80", b"1e0")
    for place, words in ((1, b"0 %s 0 0"), (2, b"0 0 %s 0"), (3, b"0 0 0 %s"), (3, b"1\n257 0 %s"), (4, b"0 0 0 0 %s")):
        pairs += [(words % word, f"refused 12 {place}") for word in outside]
    pairs += [(b"0 " + word + b" 0 0", "refused 4 0") for word in (b"2147483647", b"-2147483648", b"257", b"-1", b"-0002147483648")]
    pairs += [(b"5 " + word + b" 0 0", good) for word in (b"0", b"-0", b"000", b"-000000000000000000000000000000")]
    pairs += [(b"0 0 0 0" + end, good) for end in (b"", b" ", b"\n", b"\n\n", b"   \n ")]
    pairs += [(b"\n\n 0\n0\n\n0   0", good), (b" 0 0 0 0", good), (b"0\r\n0 0 0\r\n", "refused 12 0"), (b"0 0 0 0\r\n", "refused 12 3")]
    pairs += [(b"0 0 0 0 0", "refused 3 3"), (b"0 0 0 1 0 0 0 0", "none 0 0"), (b"0 256 0 0", good)]
    pairs += [(b"0" * 3000 + b" " + ZERO, good), (b"0 0 0 -" + b"0" * 3000, good), (b"0 " + ZERO + b" " * 65529, good)]
    pairs += [(b"0" + b" 0" * 16385 + b" 2147483648", "refused 12 16386")]
    return pairs


def text_of(limit, atoms, rules):
    words = [limit, atoms, 0, len(rules)]
    for rule in rules:
        for part in rule:
            words += [len(part)] + part
    return " ".join(map(str, words)).encode() + b"\n"


def pigeons(birds, holes):
    at = lambda b, h: b * holes + h + 1
    rules = [([at(b, h) for h in range(holes)], [], [], []) for b in range(birds)]
    for h in range(holes):
        rules += [([], [at(b, h), at(c, h)], [], []) for c in range(birds) for b in range(c)]
    return birds * holes, rules


def chain(length):
    """`1 :- 2. 2 :- 3. ..`, the last a fact: the order that takes the most passes."""
    return length, [([i], [i + 1], [], []) for i in range(1, length)] + [([length], [], [], [])]


def colouring(rng, nodes, edges_wanted, colours):
    at = lambda node, c: node * colours + c + 1
    rules = [([at(node, c) for c in range(colours)], [], [], []) for node in range(nodes)]
    chosen = rng.sample([(a, b) for b in range(nodes) for a in range(b)], edges_wanted)
    rules += [([], [at(a, c), at(b, c)], [], []) for a, b in chosen for c in range(colours)]
    return nodes * colours, rules


def threes(rng, pairs, clauses):
    """`a | a'.` for each pair, and constraints over three of them at random: many skips."""
    rules = [([2 * i + 1, 2 * i + 2], [], [], []) for i in range(pairs)]
    for _ in range(clauses):
        rules.append(([], sorted(2 * i + rng.choice([1, 2]) for i in rng.sample(range(pairs), 3)), [], []))
    return 2 * pairs, rules


def loops(rng, size):
    """Even loops for a guess, positive loops among derived atoms, and constraints that ask for some of them."""
    rules = []
    for i in range(1, size, 2):
        rules += [([i], [], [i + 1], []), ([i + 1], [], [i], [])]
    for p in range(size + 1, 2 * size + 1):
        for _ in range(2):
            body = sorted({rng.randrange(1, size + 1), rng.randrange(size + 1, 2 * size + 1)} - {p})
            rules.append(([p], body, [], []))
    rules += [([], [], sorted(rng.sample(range(size + 1, 2 * size + 1), 2)), []) for _ in range(size // 2)]
    return 2 * size, rules


def larger():
    rng = random.Random(7)
    programs = [pigeons(4, 3), pigeons(5, 4), pigeons(6, 5), chain(5), chain(256)]
    programs += [colouring(rng, nodes, edges_wanted, 3) for nodes, edges_wanted in ((8, 14), (10, 20), (12, 26), (15, 34), (20, 45))]
    programs += [threes(rng, pairs, int(pairs * 4.3)) for pairs in (8, 10, 12, 14, 16, 18, 20, 22, 24, 26)]
    programs += [loops(rng, size) for size in (4, 6, 8, 10, 12, 14, 16)]
    return [text_of(limit, *program) for program in programs for limit in (4294967295, 7)]


def printed(baseline, text):
    return subprocess.run([baseline, "text"], input=text, stdout=subprocess.PIPE, check=True).stdout.decode().rstrip("\n")


def main():
    if len(sys.argv) != 5:
        sys.exit(__doc__)
    lines, at_edges, out, baseline = sys.argv[1:]
    pairs = from_lines(lines) + example() + cases() + from_edges(at_edges) + edges()
    wrong = [(text[:60], expected) for text, expected in pairs if printed(baseline, text) != expected]
    if wrong:
        sys.exit(f"the baseline prints other lines: {wrong}")
    compared = len(pairs)
    pairs += [(text, printed(baseline, text)) for text in larger()]
    with open(f"{out}/texts.bin", "wb") as file:
        file.write(b"".join(len(text).to_bytes(4, "little") + text for text, _ in pairs))
    with open(f"{out}/texts.stdout", "w", encoding="ascii") as file:
        file.writelines(expected + "\n" for _, expected in pairs)
    print(f"{len(pairs)} texts; the baseline agreed on the {compared} whose lines were given")


if __name__ == "__main__":
    main()
