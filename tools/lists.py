#!/usr/bin/env python3
"""What the compiled library is given, and has to say, of listing every plan (request 7).

    python3 tools/lists.py VECTORS TABLES OUT     writes OUT/stdin, OUT/stdout and OUT/all

VECTORS has one JSON object a line: `words`, `limit` and `length` (of the rows, in bytes) of a call, and `result`, what an implementation that shares nothing with this
repository says of it: {"refused": [number, place]}, or `end` (complete, full or limit), `plans` (each a byte for each atom), `choices` and `skips`. Where the counts
under 01's own reasons are others, the whole result stands in `result01`, which is not used. Calls of another edition, or with head cycles allowed, are
passed over. A text of `stdin` is the limit, the length and the words in decimal, after its length in bytes, four bytes, low byte first. Of each, `stdout` has two
lines: the end, the number listed, the choices and the skips, or the refusal; and the same of a listing of all plans without a limit into 256 rows, without counts.

TABLES is what the program `run_tables` reads; `all` has the second line of each of its tables.

The second lines are those of tools/enumerate.py, which tries every interpretation; of tables whose first word is above 8 they say `-`. Each line ends with a sum over
the bytes of the rows that are listed and of the one after them; before a call all bytes are 7."""
import json
import os
import sys

from enumerate import Refused, answer_sets, read_table

ALL = 65536


def sum_of(rows, length, listed):
    total = 1
    for byte in rows[: min(length, 256 * (listed + 1))]:
        total = (total * 33 + byte + 1) % 65521
    return total


def ended(head, plans, length):
    """A line, of plans that are lists of bytes."""
    rows = b"".join(bytes(plan) + bytes(256 - len(plan)) for plan in plans)
    return f"{head} / {sum_of(rows + bytes([7]) * (length - len(rows)), length, len(plans))}"


def line_of(case):
    result = case["result"]
    if "refused" in result:
        number, place = result["refused"]
        return ended(f"refused {number} {place}", [], case["length"])
    plans = result["plans"]
    return ended(f"{result['end']} {len(plans)} {result['choices']} {result['skips']}", plans, case["length"])


def all_of(words, cycles=False):
    if words and words[0] > 8:
        return "-"
    try:
        program = read_table(words, cycles)
    except Refused as refused:
        return ended(f"refused {refused.number} {refused.place}", [], ALL)
    plans = [[x >> i & 1 for i in range(program.atoms)] for x in answer_sets(program)]
    return ended(f"complete {len(plans)}", plans, ALL)


def cases_in(data):
    """The cases of run_tables: the words, the length of the plan buffer and the bytes given. Of each the file has these three numbers, then words and bytes."""
    at = 0

    def number():
        nonlocal at
        at += 1
        if data[at - 1] < 255:
            return data[at - 1] - 4
        at += 4
        return int.from_bytes(data[at - 4 : at], "little", signed=True)

    while at < len(data):
        count, room, given = number(), number(), number()
        yield [number() for _ in range(count)], room, [number() for _ in range(given)]


def texts_of(cases):
    """The listings as texts, each after its length: the limit, the length of the rows and the words."""
    texts = [" ".join(str(n) for n in [case["limit"], case["length"]] + case["words"]).encode() for case in cases]
    return b"".join(len(text).to_bytes(4, "little") + text for text in texts)


def main(vectors, tables, out):
    with open(vectors, encoding="utf-8") as f:
        cases = [case for case in map(json.loads, f) if case.get("edition", 1) == 1 and not case.get("cycles", False)]
    with open(os.path.join(out, "stdin"), "wb") as f:
        f.write(texts_of(cases))
    with open(os.path.join(out, "stdout"), "w", encoding="ascii") as f:
        f.write("".join(line_of(case) + "\n" + all_of(case["words"]) + "\n" for case in cases))
    with open(tables, "rb") as f:
        lines = [all_of(words) for words, _, _ in cases_in(f.read())]
    with open(os.path.join(out, "all"), "w", encoding="ascii") as f:
        f.write("".join(line + "\n" for line in lines))
    print(f"{len(cases)} listings, {len(lines)} tables")


if __name__ == "__main__":
    main(*sys.argv[1:])
