#!/usr/bin/env python3
"""What the compiled library is given, and has to say, of the stored form (request 12).

    python3 tools/stored.py VECTORS OUT     writes OUT/stdin and OUT/stdout

VECTORS has one JSON object a line: `way` (store or restore), `words` or `bytes`, `room` (of the buffer that is written, in bytes or words) and `result`, what an
implementation that shares nothing with this repository says: the bytes or words that are written, or ["refused", number, place]. A line of `stdin` is `s` or `r`, the
room, and the words or bytes. Of each, `stdout` has `wrote` with the length, or the refusal, and a sum over the whole buffer; before a call it holds 35, in words -7.

More cases are made from them, by rules that 02 states and that need no second reading: the bytes of tables that are refused with 8 or 9, with empty names and with one that
is not (24 comes last); tables of 16,384 words and of one more, with one byte too many and without (1 comes after 3); the bytes of small tables cut short at every
place, with names and without, which is 2 at the first byte of the number or name that is cut."""
import json
import os
import sys

WORDS = 16384


def two(n):
    return [n % 256, n // 256]


def stored(words, names):
    """The bytes of a table's words, and where each number and name of them begins."""
    bytes_, starts, at = [], [], 0

    def number(width=2, code=lambda w: w):
        nonlocal at
        starts.append(len(bytes_))
        n = code(words[at]) % 256**width
        bytes_.extend(n >> (8 * i) & 255 for i in range(width))
        at += 1
        return words[at - 1]

    def some(times, *parts):
        for _ in range(times):
            for part in parts:
                part()

    n = number()
    for name in names or [[]] * n:
        starts.append(len(bytes_))
        bytes_.extend(two(len(name)))
        if name:
            starts.append(len(bytes_))
        bytes_.extend(name)

    def aggregate():
        number()
        number()
        number(4)
        some(number(), number, number)

    def rule():
        for _ in range(3):
            some(number(), number)
        some(number(), lambda: number(code=lambda w: 2 * abs(w) + (w < 0)))

    some(number(), aggregate)
    some(number(), rule)
    assert at == len(words)
    return bytes_, starts


def sum_of(written, untouched, room):
    total = 1
    for x in written + [untouched] * (room - len(written)):
        total = (total * 33 + (x & 0xFFFFFFFF) + 1) % 65521
    return total


def line_of(case):
    result, room = case["result"], case["room"]
    untouched = 35 if case["way"] == "store" else -7
    if result[:1] == ["refused"]:
        return f"refused {result[1]} {result[2]} / {sum_of([], untouched, room)}"
    return f"wrote {len(result)} / {sum_of(result, untouched, room)}"


def wide(words):
    """A table of so many words: 64 atoms and 1,024 constraints, each over the first few of them."""
    few, longer = divmod(words - 3 - 4 * 1024, 1024)
    table = [64, 0, 1024]
    for rule in range(1024):
        length = few + (rule < longer)
        table += [0, length] + list(range(1, length + 1)) + [0, 0]
    return table


def more(cases):
    for case in cases:
        if case["way"] == "store" and case["result"][:1] == ["refused"] and case["result"][1] in (8, 9):
            n = case["words"][0]
            for names in ([], [[]] * (n - 1) + [[65]]):
                yield {"way": "restore", "bytes": stored(case["words"], names)[0], "room": WORDS, "result": case["result"]}
        if case["way"] == "store" and case["result"][:1] != ["refused"] and len(case["result"]) < 48:
            n = case["words"][0]
            yield {"way": "restore", "bytes": case["result"], "room": WORDS + 3, "result": case["words"]}
            for names in ([], [[7] * (i % 4) for i in range(n)]):
                whole, starts = stored(case["words"], names)
                assert names or whole == case["result"]
                for end in range(len(whole)):
                    place = max(s for s in starts if s <= end)
                    yield {"way": "restore", "bytes": whole[:end], "room": WORDS, "result": ["refused", 2, place]}
    for words in (WORDS - 1, WORDS, WORDS + 1):
        table = wide(words)
        assert len(table) == words
        bytes_ = stored(table, [])[0]
        yield {"way": "restore", "bytes": bytes_, "room": WORDS, "result": ["refused", 1, 0] if words > WORDS else table}
        yield {"way": "restore", "bytes": bytes_ + [0], "room": WORDS, "result": ["refused", 3, len(bytes_)]}
        yield {"way": "store", "words": table, "room": 40000, "result": ["refused", 1, 0] if words > WORDS else bytes_}


def main():
    vectors, out = sys.argv[1:]
    with open(vectors, encoding="ascii") as file:
        cases = [json.loads(line) for line in file]
    for case in cases:
        if case["way"] == "store" and case["result"][:1] != ["refused"]:
            assert stored(case["words"], [])[0] == case["result"]
    cases += list(more(cases))
    with open(os.path.join(out, "stdin"), "w", encoding="ascii", newline="\n") as file:
        for case in cases:
            given = case["words"] if case["way"] == "store" else case["bytes"]
            file.write(" ".join([case["way"][0], str(case["room"])] + [str(x) for x in given]) + "\n")
    with open(os.path.join(out, "stdout"), "w", encoding="ascii", newline="\n") as file:
        for case in cases:
            file.write(line_of(case) + "\n")


main()
