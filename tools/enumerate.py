#!/usr/bin/env python3
"""Answer sets by enumeration, straight from the definition in 01.

    python3 tools/enumerate.py [cycles] W W ..     prints all answer sets, in 01's order, or the refusal, of a table; with `cycles` 8 is not given (request 14)

There is no solver here: no propagation, no search, no foundedness. Every interpretation is tried: is it a
model, and is no proper subset a model of its reduct. Only the standard library is used. `cases.py` makes the
gate's cases with it.
"""

import sys

MOST_WORDS = 16384


# ---- The table: refusals 1 to 7, each word from the left -------------------------------------------------


class Refused(Exception):
    def __init__(self, number, place):
        super().__init__(number, place)
        self.number = number
        self.place = place


class Aggregate:
    def __init__(self, function, comparison, threshold, elements):
        self.function = function  # 0 count, 1 sum, 2 min, 3 max
        self.comparison = comparison  # 0 less than, 1 greater than
        self.threshold = threshold
        self.elements = elements  # pairs of value and atom


class Rule:
    def __init__(self, head, positive, negated, literals):
        self.head = head
        self.positive = positive
        self.negated = negated
        self.literals = literals  # j for aggregate j, -j for its negation


class Program:
    def __init__(self, atoms, aggregates, rules):
        self.atoms = atoms
        self.aggregates = aggregates
        self.rules = rules


class Words:
    """The words from the left; each reading function tests what 01 asks of a word in that role."""

    def __init__(self, words):
        self.words = words
        self.next = 0

    def word(self):
        if self.next >= len(self.words):
            raise Refused(2, self.next)
        self.next += 1
        return self.words[self.next - 1]

    def ranged(self, number, low, high):
        place = self.next
        word = self.word()
        if not low <= word <= high:
            raise Refused(number, place)
        return word

    def count(self, high):
        return self.ranged(4, 0, high)

    def quantity(self, low, high):
        return self.ranged(7, low, high)

    def member(self, high, previous, signed):
        """A list's member; `previous` is the member before it without its sign, or None."""
        place = self.next
        word = self.word()
        size = abs(word) if signed else word
        if not 1 <= size <= high:
            raise Refused(5, place)
        if previous is not None and size <= previous:
            raise Refused(6, place)
        return word

    def ascending(self, most, high, signed=False):
        members = []
        previous = None
        for _ in range(self.count(most)):
            members.append(self.member(high, previous, signed))
            previous = abs(members[-1])
        return members


def read_aggregate(words, atoms):
    function = words.quantity(0, 3)
    comparison = words.quantity(0, 1)
    threshold = words.quantity(-1, 4194304)
    elements = []
    for _ in range(words.count(64)):
        value = words.quantity(0, 65535)
        previous = elements[-1][1] if elements else None
        elements.append((value, words.member(atoms, previous, False)))
    return Aggregate(function, comparison, threshold, elements)


def read_rule(words, atoms, aggregates):
    head = words.ascending(16, atoms)
    positive = words.ascending(64, atoms)
    negated = words.ascending(64, atoms)
    literals = words.ascending(8, aggregates, signed=True)
    return Rule(head, positive, negated, literals)


def read_table(words, cycles=False):
    """The program of the words, or Refused 1 to 9; 8 is not given where head cycles are taken. (10 and 11 are about the plan: see `cases.py`.)"""
    if len(words) > MOST_WORDS:
        raise Refused(1, 0)
    reader = Words(words)
    atoms = reader.count(256)
    aggregates = [read_aggregate(reader, atoms) for _ in range(reader.count(64))]
    rules = [read_rule(reader, atoms, len(aggregates)) for _ in range(reader.count(1024))]
    if reader.next < len(words):
        raise Refused(3, reader.next)
    program = Program(atoms, aggregates, rules)
    if not cycles:
        refuse_head_cycle(program)
    refuse_aggregate_cycle(program)
    return program


# ---- Refusals 8 and 9 ------------------------------------------------------------------------------------


def reached_from(arcs, start):
    """The atoms that `start` reaches by one or more arcs."""
    reached = set()
    waiting = list(arcs.get(start, ()))
    while waiting:
        atom = waiting.pop()
        if atom not in reached:
            reached.add(atom)
            waiting.extend(arcs.get(atom, ()))
    return reached


def element_atoms(program, rule):
    return [atom for literal in rule.literals for _, atom in program.aggregates[abs(literal) - 1].elements]


def arcs_of(program, with_aggregates):
    arcs = {}
    for rule in program.rules:
        for h in rule.head:
            arcs.setdefault(h, set()).update(rule.positive)
            if with_aggregates:
                arcs[h].update(element_atoms(program, rule))
    return arcs


def refuse_head_cycle(program):
    arcs = arcs_of(program, False)
    reached = {atom: reached_from(arcs, atom) for atom in arcs}
    for number, rule in enumerate(program.rules, 1):
        for a in rule.head:
            for b in rule.head:
                if a != b and b in reached[a] and a in reached[b]:
                    raise Refused(8, number)


def refuse_aggregate_cycle(program):
    arcs = arcs_of(program, True)
    for number, rule in enumerate(program.rules, 1):
        for e in element_atoms(program, rule):
            for h in rule.head:
                if e == h or h in reached_from(arcs, e):
                    raise Refused(9, number)


# ---- Meaning. An interpretation is a number whose bit i-1 says that atom i is true ------------------------


def is_true(atom, interpretation):
    return interpretation >> (atom - 1) & 1 == 1


def aggregate_is_true(aggregate, interpretation):
    values = [value for value, atom in aggregate.elements if is_true(atom, interpretation)]
    if aggregate.function == 0:
        value = len(values)
    elif aggregate.function == 1:
        value = sum(values)
    elif not values:
        return False
    elif aggregate.function == 2:
        value = min(values)
    else:
        value = max(values)
    return value < aggregate.threshold if aggregate.comparison == 0 else value > aggregate.threshold


def body_is_true(program, rule, interpretation):
    return (
        all(is_true(atom, interpretation) for atom in rule.positive)
        and not any(is_true(atom, interpretation) for atom in rule.negated)
        and all(
            aggregate_is_true(program.aggregates[abs(literal) - 1], interpretation) == (literal > 0)
            for literal in rule.literals
        )
    )


def holds(program, rule, interpretation):
    return any(is_true(atom, interpretation) for atom in rule.head) or not body_is_true(program, rule, interpretation)


def is_model(program, rules, interpretation):
    return all(holds(program, rule, interpretation) for rule in rules)


def reduct(program, interpretation):
    return [rule for rule in program.rules if body_is_true(program, rule, interpretation)]


def proper_subsets(interpretation):
    subset = interpretation
    while subset:
        subset = (subset - 1) & interpretation
        yield subset


def is_answer_set(program, interpretation):
    if not is_model(program, program.rules, interpretation):
        return False
    kept = reduct(program, interpretation)
    return not any(is_model(program, kept, subset) for subset in proper_subsets(interpretation))


def interpretations(program):
    """All of them for up to 8 atoms. Above that only those whose atoms are all in some head: an atom p in no
    head is in no answer set X, as X without p is a model of the reduct (each head true in X is so without p)."""
    if program.atoms <= 8:
        return range(2**program.atoms)
    heads = 0
    for rule in program.rules:
        for atom in rule.head:
            heads |= 1 << (atom - 1)
    return [heads] + list(proper_subsets(heads))


def atoms_of(interpretation):
    return [i + 1 for i in range(interpretation.bit_length()) if interpretation >> i & 1]


def answer_sets(program):
    """All answer sets in 01's order: at the lowest atom on which two differ, the one that has it comes first."""
    found = [x for x in interpretations(program) if is_answer_set(program, x)]
    return sorted(found, key=lambda x: [1 - (x >> i & 1) for i in range(program.atoms)])


# ---- One table from the command line ------------------------------------------------------------------------


def main():
    cycles = sys.argv[1:2] == ["cycles"]
    try:
        program = read_table([int(word) for word in sys.argv[2 if cycles else 1:]], cycles)
    except Refused as refused:
        print(f"refused {refused.number} {refused.place}")
        return
    for x in answer_sets(program):
        print("answer set:", *atoms_of(x))


if __name__ == "__main__":
    main()
