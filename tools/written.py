#!/usr/bin/env python3
"""The gate's cases of writing aspif (02, Wish 6): tables, and the texts that the definition writes for them.

    python3 tools/written.py CASES OUT    writes OUT/written.bin and OUT/written.stdout

CASES has a table with its answer sets on each line, as JSON: {"words": [..], "answer sets": [[..], ..]}. For
every table the text is made here, straight from the definition's words, and judged here: the answer sets of
the text, by enumeration, restricted to atoms 1 to N, are those that CASES names, and as many. To these tables
come some at the edges, and each is run with buffers of the text's length, of more, of one byte less and of none.

written.bin, read by the program `run_aspif_write`: one text after the other up to the end of the file, each after
its length in bytes, four bytes, low byte first; the text is the length of the lent buffer, then the table's words.
The buffer holds `#` everywhere before the call. written.stdout: a line `wrote N` or `refused NUMBER PLACE`, then the
buffer after the call, then a newline.
"""

import itertools
import json
import sys

from enumerate import Refused, read_table

COUNT, SUM, MIN, MAX = range(4)


# ---- The text --------------------------------------------------------------------------------------------


def used_literals(program):
    """By aggregate number, j before -j."""
    used = {literal for rule in program.rules for literal in rule.literals}
    return [l for j in range(1, len(program.aggregates) + 1) for l in (j, -j) if l in used]


def bodies(aggregate):
    """The bodies that make the new atom true, each as the numbers that stand in the line."""
    below = aggregate.comparison == 0
    t = aggregate.threshold
    if aggregate.function in (COUNT, SUM):
        bound = t if below else t + 1
        if bound <= 0:
            return [[0, 0]]
        pairs = [(atom, 1 if aggregate.function == COUNT else value) for value, atom in aggregate.elements]
        pairs = [(atom, weight) for atom, weight in pairs if weight != 0]
        return [[1, bound, len(pairs)] + [number for pair in pairs for number in pair]]
    good = [atom for value, atom in aggregate.elements if (value < t if below else value > t)]
    bad = [atom for _, atom in aggregate.elements if atom not in good]
    if below == (aggregate.function == MIN):
        bad = []  # one good element is enough
    return [[0, 1 + len(bad), atom] + [-b for b in bad] for atom in good]


def text_of(program):
    used = used_literals(program)
    new = {literal: program.atoms + 1 + place for place, literal in enumerate(used)}

    def signed(literal):
        aggregate = program.aggregates[abs(literal) - 1]
        negation = aggregate.function in (COUNT, SUM) and aggregate.comparison == 0
        return new[literal] if (literal > 0) != negation else -new[literal]

    lines = ["asp 1 0 0"]
    for rule in program.rules:
        body = rule.positive + [-a for a in rule.negated] + [signed(l) for l in rule.literals]
        lines.append(" ".join(map(str, [1, 0, len(rule.head)] + rule.head + [0, len(body)] + body)))
    for literal in used:
        for body in bodies(program.aggregates[abs(literal) - 1]):
            lines.append(" ".join(map(str, [1, 0, 1, new[literal]] + body)))
    lines.append("0")
    return "".join(line + "\n" for line in lines)


# ---- Its answer sets -------------------------------------------------------------------------------------


def statements(text):
    lines = text.split("\n")
    assert lines[0] == "asp 1 0 0" and lines[-2:] == ["0", ""]
    found = []
    for line in lines[1:-2]:
        numbers = [int(field) for field in line.split(" ")]
        assert numbers[:2] == [1, 0]
        head, rest = numbers[3:3 + numbers[2]], numbers[3 + numbers[2]:]
        if rest[0] == 0:
            assert len(rest) == 2 + rest[1]
            found.append((head, None, rest[2:]))
        else:
            pairs = list(zip(rest[3::2], rest[4::2]))
            assert len(rest) == 3 + 2 * rest[2] and all(weight > 0 for _, weight in pairs)
            found.append((head, rest[1], pairs))
    return found


def body_true(statement, atoms):
    _, bound, body = statement
    if bound is None:
        return all((abs(l) in atoms) == (l > 0) for l in body)
    return sum(weight for atom, weight in body if atom in atoms) >= bound


def is_model(program, atoms):
    return all(any(h in atoms for h in s[0]) or not body_true(s, atoms) for s in program)


def subsets(atoms):
    atoms = sorted(atoms)
    return (set(c) for k in range(len(atoms) + 1) for c in itertools.combinations(atoms, k))


def answer_sets(program):
    """Atoms in no head are never true, so that only the others are tried."""
    heads = {h for s in program for h in s[0]}
    for atoms in subsets(heads):
        if is_model(program, atoms):
            reduct = [s for s in program if body_true(s, atoms)]
            if not any(is_model(reduct, smaller) for smaller in subsets(atoms) if smaller != atoms):
                yield atoms


def judge(words, sets, text):
    program = statements(text)
    if len({h for s in program for h in s[0]}) > 14:
        return
    restricted = sorted(sorted(a for a in atoms if a <= words[0]) for atoms in answer_sets(program))
    assert restricted == sorted(sets), (words, restricted, sets)


# ---- The cases -------------------------------------------------------------------------------------------

EDGES = [
    [],
    [0, 0, 0],
    [0, 0, 0, 0],
    [257],
    [256, 0, 0],
    [1, 0, 1, 1, 2, 0, 0, 0],
    [2, 0, 1, 2, 2, 1, 0, 0, 0],
    [2, 0, 3, 2, 1, 2, 0, 0, 0, 1, 1, 1, 2, 0, 0, 1, 2, 1, 1, 0, 0],  # 8
    [1, 1, 0, 1, 0, 1, 1, 1, 1, 1, 1, 0, 0, 1, 1],  # 9
    [2, 1, 1, 0, -1, 1, 0, 1, 1, 1, 2, 0, 0, 1, 1],  # sum < -1, weight 0
    [2, 1, 1, 1, 4194304, 1, 65535, 1, 1, 1, 2, 0, 0, 1, -1],
    [0] * 16385,
]


def cases(path):
    for line in open(path):
        case = json.loads(line)
        text = text_of(read_table(case["words"]))
        judge(case["words"], case["answer sets"], text)
        yield case["words"], text
    for words in EDGES:
        try:
            yield words, text_of(read_table(words))
        except Refused as refused:
            yield words, (refused.number, refused.place)


def runs(path):
    for place, (words, text) in enumerate(cases(path)):
        if isinstance(text, tuple):
            for room in (0, 3):
                yield room, words, "refused %d %d" % text, "#" * room
            continue
        yield len(text), words, "wrote %d" % len(text), text
        if place % 10 == 0:
            for room in (0, 1, len(text) - 1):
                yield room, words, "refused 16 0", "#" * room
            for room in (len(text) + 1, len(text) + 40):
                yield room, words, "wrote %d" % len(text), text + "#" * (room - len(text))


def main(path, out):
    with open(out + "/written.bin", "wb") as inputs, open(out + "/written.stdout", "w") as expected:
        for room, words, result, buffer in runs(path):
            text = " ".join(map(str, [room] + words)).encode()
            inputs.write(len(text).to_bytes(4, "little") + text)
            expected.write(result + "\n" + buffer + "\n")


if __name__ == "__main__":
    main(sys.argv[1], sys.argv[2])
