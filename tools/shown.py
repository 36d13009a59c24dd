#!/usr/bin/env python3
"""The gate's cases of showing a table in 01's notation, and the notation read by a program that shares nothing with the proofs.

    python3 tools/shown.py OUT            writes OUT/shown.bin and OUT/shown.stdout
    python3 tools/shown.py --read FILE    prints the words of a table in notation
    python3 tools/shown.py --show WORD..  prints a table in notation
    python3 tools/shown.py --examples     fails where examples/notation/NAME.words are not the words of NAME.table, or their text does not read back

The tables are those of tools/generate.py: random ones, with head cycles and aggregate cycles, damaged ones, every limit of 01 and one past it. Every text is
read back here, and gives the same words. shown.bin, read by the program `run_show`: one text after the other up to the end of the file, each after its length
in bytes, four bytes, low byte first; the text is the length of the lent buffer, then the table's words. The buffer holds `#` everywhere before the call.
shown.stdout: a line `wrote N` or `refused NUMBER PLACE`, then the buffer after the call, then a newline. Standard library only."""

import glob
import os
import random
import re
import sys

import enumerate as tables
from enumerate import Aggregate, Program, Refused, Rule
from generate import damaged_cases, limit_cases, list_cases, random_program, word_cases, words_of

FUNCTIONS = ["count", "sum", "min", "max"]
MOST_BYTES = 65536


def held(words):
    """The program of the words, or Refused 1 to 7: tables with cycles are shown."""
    head, aggregate = tables.refuse_head_cycle, tables.refuse_aggregate_cycle
    tables.refuse_head_cycle = tables.refuse_aggregate_cycle = lambda program: None
    try:
        return tables.read_table(words)
    finally:
        tables.refuse_head_cycle, tables.refuse_aggregate_cycle = head, aggregate


# ---- The text ------------------------------------------------------------------------------------------------


def named(program):
    """The least d such that the literals over aggregates above d take them in turn, each once."""
    taken = [abs(literal) for rule in program.rules for literal in rule.literals]
    total = len(program.aggregates)
    return min(d for d in range(total + 1) if [j for j in taken if j > d] == list(range(d + 1, total + 1)))


def aggregate_text(aggregate):
    elements = ", ".join("%d:%d" % pair for pair in aggregate.elements)
    return "%s{%s} %s %d" % (FUNCTIONS[aggregate.function], elements, "<>"[aggregate.comparison], aggregate.threshold)


def rule_text(program, rule, names):
    def literal(j):
        text = "#%d" % abs(j) if abs(j) <= names else aggregate_text(program.aggregates[abs(j) - 1])
        return text if j > 0 else "not " + text

    body = [str(p) for p in rule.positive] + ["not %d" % p for p in rule.negated] + [literal(j) for j in rule.literals]
    head = " | ".join(map(str, rule.head))
    if head and not body:
        return head + "."
    return (head + " " if head else "") + ":- " + ", ".join(body) + "."


def text_of(program):
    names = named(program)
    lines = ["atoms %d." % program.atoms]
    lines += ["#%d = %s." % (j + 1, aggregate_text(program.aggregates[j])) for j in range(names)]
    lines += ["%d: %s" % (i, rule_text(program, rule, names)) for i, rule in enumerate_from_1(program.rules)]
    return "\n".join(lines) + "\n"


def enumerate_from_1(items):
    return zip(range(1, len(items) + 1), items)


# ---- The text read -------------------------------------------------------------------------------------------

TOKEN = re.compile(r"\s+|%[^\n]*|(\d+|[a-z]+|:-|.)", re.S)


class Reader:
    def __init__(self, text):
        self.tokens = [m.group(1) for m in TOKEN.finditer(text) if m.group(1)]
        self.at = 0

    def peek(self):
        return self.tokens[self.at] if self.at < len(self.tokens) else ""

    def take(self, wanted=None):
        token = self.peek()
        if not token or wanted is not None and token != wanted:
            raise ValueError("token %d: %r where %r is wanted" % (self.at, token, wanted))
        self.at += 1
        return token

    def got(self, wanted):
        if self.peek() == wanted:
            self.at += 1
            return True
        return False

    def number(self):
        return int(self.take())

    def aggregate(self):
        function = FUNCTIONS.index(self.take())
        self.take("{")
        elements = []
        while not self.got("}"):
            if elements:
                self.take(",")
            value = self.number()
            self.take(":")
            elements.append((value, self.number()))
        comparison = "<>".index(self.take())
        sign = -1 if self.got("-") else 1
        return Aggregate(function, comparison, sign * self.number(), elements)

    def rule(self, aggregates):
        head, positive, negated, literals = [], [], [], []
        while self.peek().isdigit():
            head.append(self.number())
            if not self.got("|"):
                break
        if self.got(":-"):
            while self.peek() != ".":
                plain = not self.got("not")
                if self.peek().isdigit():
                    (positive if plain else negated).append(self.number())
                elif self.got("#"):
                    literals.append(self.number() * (1 if plain else -1))
                else:
                    aggregates.append(self.aggregate())
                    literals.append(len(aggregates) * (1 if plain else -1))
                if not self.got(","):
                    break
        self.take(".")
        return Rule(head, positive, negated, literals)

    def table(self):
        atoms, aggregates, rules = None, [], []
        if self.got("atoms"):
            atoms = self.number()
            self.take(".")
        while self.peek():
            if self.got("#"):
                assert self.number() == len(aggregates) + 1
                self.take("=")
                aggregates.append(self.aggregate())
                self.take(".")
                continue
            if self.peek().isdigit() and self.tokens[self.at + 1] == ":":
                assert self.number() == len(rules) + 1
                self.take(":")
            rules.append(self.rule(aggregates))
        named_atoms = [p for rule in rules for part in (rule.head, rule.positive, rule.negated) for p in part]
        named_atoms += [atom for aggregate in aggregates for _, atom in aggregate.elements]
        return Program(max(named_atoms, default=0) if atoms is None else atoms, aggregates, rules)


def read(text):
    words = words_of(Reader(text).table())
    held(words)
    return words


# ---- The cases -----------------------------------------------------------------------------------------------


def case_tables():
    rng = random.Random(27)
    seen = []
    for _ in range(100):
        seen.append(words_of(random_program(rng, rng.choice([0, 1, 2, 3, 4, 5, 6, 8, 12]))))
    seen += [case.words for case in damaged_cases(rng, 3) + limit_cases() + list_cases() + word_cases()]
    for path in example_paths():
        seen.append(read(open(path).read()))
    unique = []
    for words in seen:
        if words not in unique:
            unique.append(words)
    return unique


def runs():
    for place, words in enumerate_from_1(case_tables()):
        try:
            text = text_of(held(words))
        except Refused as refused:
            yield place % 3, words, "refused %d %d" % (refused.number, refused.place), "#" * (place % 3)
            continue
        assert read(text) == words
        if len(text) > MOST_BYTES:
            yield 5, words, "refused 16 0", "#" * 5
            continue
        yield len(text), words, "wrote %d" % len(text), text
        if place % 10 == 0:
            for room in (0, 1, len(text) - 1):
                yield room, words, "refused 16 0", "#" * room
            yield len(text) + 7, words, "wrote %d" % len(text), text + "#" * 7


def example_paths():
    return sorted(glob.glob(os.path.join(os.path.dirname(os.path.abspath(__file__)), "..", "examples", "notation", "*.table")))


def check_examples():
    for path in example_paths():
        words = read(open(path).read())
        with open(path[: -len("table")] + "words") as stored:
            assert list(map(int, stored.read().split())) == words, path
        assert read(text_of(held(words))) == words, path


def main(arguments):
    if arguments[0] == "--read":
        print(" ".join(map(str, read(open(arguments[1]).read()))))
    elif arguments[0] == "--show":
        print(text_of(held(list(map(int, arguments[1:])))), end="")
    elif arguments[0] == "--examples":
        check_examples()
    else:
        with open(arguments[0] + "/shown.bin", "wb") as inputs, open(arguments[0] + "/shown.stdout", "w") as expected:
            for room, words, result, buffer in runs():
                text = " ".join(map(str, [room] + words)).encode()
                inputs.write(len(text).to_bytes(4, "little") + text)
                expected.write(result + "\n" + buffer + "\n")


if __name__ == "__main__":
    main(sys.argv[1:])
