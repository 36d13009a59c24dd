"""Tables for the gate: random programs of all shapes, damaged tables, every limit of 01 and one past it."""

from enumerate import MOST_WORDS, Aggregate, Program, Refused, Rule, answer_sets, read_table


class Case:
    """A table and a plan buffer; where no plan is given, all atoms are false in it."""

    def __init__(self, words, plan=None, length=256):
        self.words = list(words)
        self.plan = [0] * self.atoms() if plan is None else list(plan)
        self.length = length

    def atoms(self):
        return self.words[0] if self.words and 0 <= self.words[0] <= 256 else 0


def words_of(program):
    """The words of a program: the other direction, for the generator."""
    words = [program.atoms, len(program.aggregates)]
    for aggregate in program.aggregates:
        words += [aggregate.function, aggregate.comparison, aggregate.threshold, len(aggregate.elements)]
        for value, atom in aggregate.elements:
            words += [value, atom]
    words.append(len(program.rules))
    for rule in program.rules:
        for part in (rule.head, rule.positive, rule.negated, rule.literals):
            words += [len(part)] + part
    return words


# ---- Random programs ------------------------------------------------------------------------------------------


def some(rng, atoms, most):
    """An ascending list of up to `most` of the atoms, short lists being the likelier."""
    atoms = list(atoms)
    size = min(len(atoms), most, rng.choice([0, 0, 1, 1, 1, 2, 2, 3]))
    return sorted(rng.sample(atoms, size))


def random_aggregate(rng, atoms):
    chosen = sorted(rng.sample(list(atoms), min(len(atoms), rng.choice([0, 1, 1, 2, 2, 3, 4, 6]))))
    values = rng.choice([[0, 1, 2, 3], [1], [0, 5], [2, 3, 7], [65535, 65534, 1], [0]])
    elements = [(rng.choice(values), atom) for atom in chosen]
    function = rng.randrange(4)
    if function == 0:
        near = len(elements)
    elif function == 1:
        near = sum(value for value, _ in elements if rng.random() < 0.6)
    else:
        near = rng.choice(elements)[0] if elements else 0
    threshold = rng.choice([-1, 0, near, near, near - 1, near - 1, near + 1, 4194304])
    return Aggregate(function, rng.randrange(2), max(-1, threshold), elements)


def random_body(rng, atoms, aggregates, layer):
    positive = some(rng, layer, 3)
    negated = some(rng, atoms, 3)
    literals = []
    if aggregates:
        chosen = sorted(rng.sample(range(1, aggregates + 1), min(aggregates, rng.choice([0, 0, 1, 1, 2]))))
        literals = [rng.choice([j, j, -j]) for j in chosen]
    return positive, negated, literals


def random_program(rng, n):
    """A program of n atoms: a guess (pairs, even loops, odd loops), then rules and constraints at random."""
    atoms = list(range(1, n + 1))
    low = rng.randrange(n + 1)
    layered = rng.random() < 0.7
    bottom = atoms[:low] if layered else atoms
    with_aggregates = rng.random() < 0.6
    aggregates = [random_aggregate(rng, bottom) for _ in range(rng.choice([1, 1, 2, 3]))] if with_aggregates else []
    rules = guess_rules(rng, bottom if rng.random() < 0.8 else atoms)
    for _ in range(rng.randrange(n + 4)):
        kind = rng.random()
        over = atoms[low:] if layered and rng.random() < 0.8 else atoms
        head = []
        if kind < 0.55:
            head = some(rng, over, 1)
        elif kind < 0.85:
            head = some(rng, over, 4)
        cyclic = rng.random() < 0.3
        layer = atoms if cyclic or not layered else [a for a in atoms if not head or a <= max(low, min(head))]
        rules.append(Rule(head, *random_body(rng, atoms, len(aggregates) if head != bottom else 0, layer)))
    rng.shuffle(rules)
    return Program(n, aggregates, rules)


def guess_rules(rng, atoms):
    rules = []
    shuffled = list(atoms)
    rng.shuffle(shuffled)
    while len(shuffled) >= 2:
        a, b = sorted([shuffled.pop(), shuffled.pop()])
        kind = rng.randrange(8)
        if kind < 3:
            rules.append(Rule([a, b], [], [], []))
        elif kind < 6:
            rules += [Rule([a], [], [b], []), Rule([b], [], [a], [])]
        elif kind == 6:
            rules += [Rule([a], [b], [], []), Rule([b], [a], [], [])]
        elif rng.random() < 0.3:
            rules.append(Rule([a], [], [a], []))
    return rules


def refusal_of(words):
    try:
        read_table(words)
    except Refused as refused:
        return refused.number
    return 0


def random_plan(rng, words, is_accepted):
    """A plan for the table; above 6 atoms, where not all plans are tried, an answer set if there is one."""
    n = words[0]
    sets = answer_sets(read_table(words)) if is_accepted and n > 6 else []
    chosen = rng.choice(sets + [rng.randrange(2**n)])
    return [chosen >> i & 1 for i in range(n)]


def random_cases(rng, accepted, refused):
    """`accepted` cases with an accepted table, and up to `refused` of each of the refusals 8 and 9."""
    cases = []
    seen = set()
    left = {0: accepted, 8: refused, 9: refused}
    while left[0] > 0 or left[8] > 0 or left[9] > 0:
        n = rng.choice([0, 1, 1, 2, 2, 3, 3, 3, 4, 4, 4, 5, 5, 5, 6, 6, 6, 7, 8])
        words = words_of(random_program(rng, n))
        number = refusal_of(words)
        if left[number] > 0 and tuple(words) not in seen:
            left[number] -= 1
            seen.add(tuple(words))
            cases.append(Case(words, random_plan(rng, words, number == 0)))
    return cases


# ---- Damaged tables, the limits and one past ------------------------------------------------------------------

ODD_WORDS = [-2147483648, 2147483647, -65536, -2, -1, 0, 1, 2, 3, 4, 8, 9, 16, 17, 64, 65, 256, 257, 1024, 1025]
ODD_WORDS += [65535, 65536, 4194304, 4194305]


def damaged_cases(rng, each):
    """Tables with one or two words changed, taken out or put in; about `each` of every refusal 2 to 7."""
    left = {number: each for number in range(2, 8)}
    cases = []
    while any(left.values()):
        words = words_of(random_program(rng, rng.randrange(1, 7)))
        for _ in range(rng.choice([1, 1, 2])):
            i = rng.randrange(len(words))
            kind = rng.random()
            if kind < 0.5:
                words[i] = rng.choice(ODD_WORDS)
            elif kind < 0.7:
                words[i] += rng.choice([-1, 1])
            elif kind < 0.8:
                words.insert(i, rng.choice(ODD_WORDS))
            elif kind < 0.9:
                del words[i]
                words = words or [0]
            else:
                words.append(rng.choice(ODD_WORDS))
        number = refusal_of(words)
        if left.get(number, 0) > 0:
            left[number] -= 1
            cases.append(Case(words))
    return cases


def every_prefix(words):
    return [Case(words[:length]) for length in range(len(words))]


# 1 | 2.  3 :- 1, not sum{5:1, 0:2} > 5, not max{65535:2} < 7.  :- 3, 4, not 1, max{65535:2} < 7.  4 :- not 2, not 3.
SAMPLE = [4, 2, 1, 1, 5, 2, 5, 1, 0, 2, 3, 0, 7, 1, 65535, 2, 4]
SAMPLE += [2, 1, 2, 0, 0, 0, 1, 3, 1, 1, 0, 2, -1, -2, 0, 2, 3, 4, 1, 1, 1, 2, 1, 4, 0, 2, 2, 3, 0]


def aggregate_table(function, comparison, threshold, elements, atoms=3):
    """Two facts or fewer and one rule for the last atom over one aggregate."""
    flat = [x for pair in elements for x in pair]
    facts = [x for atom in range(1, atoms) for x in (1, atom, 0, 0, 0)]
    head = [atoms, 1, function, comparison, threshold, len(elements)] + flat
    return head + [atoms] + facts + [1, atoms, 0, 0, 1, 1]


def limit_cases():
    """Each count and range of 01 at its limit and one past it."""
    tables = [[257, 0, 0], [256, 0, 0], [255, 0, 0], [-1, 0, 0], [8, 0, 0], [0, 0, 1025], [0, 0, 1024], [0, 0, -1]]
    tables += [[0, 65, 0], [0, -1, 0], [0] + [64] + [0, 0, 0, 0] * 64 + [0], [0, 65] + [0, 0, 0, 0] * 65 + [0]]
    tables += [[0, 0, 1024] + [0, 1, 1, 0] * 1024]
    tables += [[0, 1, 0, 1, -1, 0, 1024] + [0, 0, 0, 1, -1] * 1024, [0, 1, 0, 1, -1, 0, 1023] + [0, 0, 0, 1, -1] * 1024]
    for most, before in ((16, []), (64, [1, 1]), (64, [1, 2, 0])):
        for size in (most, most + 1):
            members = list(range(3, 3 + size))
            after = [0] * (3 - (0 if not before else len(before) - 1))
            tables.append([256, 0, 1] + before + [size] + members + after)
    for size in (8, 9):
        aggregates = [0, 1, -1, 0] * 9
        tables.append([1, 9] + aggregates + [1, 1, 1, 0, 0, size] + list(range(1, size + 1)))
        tables.append([1, 9] + aggregates + [1, 1, 1, 0, 0, size] + [-j for j in range(1, size + 1)])
    for size in (64, 65):
        elements = [x for atom in range(1, size + 1) for x in (1, atom)]
        tables.append([100, 1, 0, 1, 1, size] + elements + [3, 1, 1, 0, 0, 0, 1, 2, 0, 0, 0, 1, 100, 0, 0, 1, 1])
    for threshold in (-2, -1, 0, 1, 2, 4194304, 4194305):
        for function in range(4):
            for comparison in range(2):
                tables.append(aggregate_table(function, comparison, threshold, [(1, 1), (0, 2)]))
    for value in (-1, 0, 65535, 65536):
        for function in range(4):
            tables.append(aggregate_table(function, 1, 65535, [(value, 1), (1, 2)]))
            tables.append(aggregate_table(function, 0, 65536, [(value, 1), (1, 2)]))
    for function, comparison in ((-1, 0), (4, 0), (0, -1), (0, 2), (3, 1)):
        tables.append(aggregate_table(function, comparison, 1, [(1, 1)]))
    return [Case(table) for table in tables]


def list_cases():
    """Lists that do not ascend, members outside their range, signs of aggregate literals."""
    tables = []
    for members in ([1, 1], [2, 1], [3, 2], [1, 2, 2], [1, 3, 2], [0, 1], [1, 4], [4, 3], [2, 0], [2, -1], [1, 2, 3]):
        for before in range(3):
            lists = [[0], [0], [0], [0]]
            lists[before] = [len(members)] + members
            tables.append([3, 0, 1] + [x for part in lists for x in part])
        elements = [x for atom in members for x in (1, atom)]
        tables.append([3, 1, 0, 1, 0, len(members)] + elements + [0])
    two = [1, 2, 0, 1, -1, 0, 1, 0, 7, 0]
    for literals in ([1, -1], [-1, 1], [1, 1], [-1, -1], [2, -1], [-2, 1], [-1, 2], [1, -2], [-1, -2], [-2, -1],
                     [0], [3], [-3], [-2147483648], [2147483647], [1, -2147483648], [1, 0], [2, -3], [-2, 2]):
        tables.append(two + [1, 1, 1, 0, 0, len(literals)] + literals)
    return [Case(table) for table in tables]


def word_cases():
    """01's own cases, prefixes, trailing words, and 16,384 words and one more."""
    tables = [[0, 0, 0], [1, 0, 1, 1, 1, 0, 1, 1, 0], [2, 0, 2, 1, 1, 1, 2, 0, 0, 1, 2, 1, 1, 0, 0]]
    tables += [[2, 0, 1, 2, 1, 2, 0, 0, 0], [2, 0, 3, 2, 1, 2, 0, 0, 0, 1, 1, 1, 2, 0, 0, 1, 2, 1, 1, 0, 0]]
    tables += [aggregate_table(0, 1, 1, [(1, 1), (1, 2)]), aggregate_table(0, 1, 2, [(1, 1), (1, 2)])]
    tables += [[2, 1, 2, 1, 3, 1, 5, 1, 1, 1, 2, 0, 0, 1, sign] for sign in (1, -1)]
    tables += [[1, 1, 0, 1, 0, 1, 1, 1, 1, 1, 1, 0, 0, 1, 1]]
    tables += [aggregate_table(1, 1, threshold, [(65535, 1), (1, 2)]) for threshold in (65535, 65536)]
    tables += [[], [257], [0, 0, 0, 0], [256, 0, 0], [0, 0, 1, 0, 0, 0, 0], [1, 0, 1, 1, 2, 0, 0, 0]]
    tables += [[2, 0, 1, 2, 2, 1, 0, 0, 0]]
    tables += [SAMPLE + [extra] for extra in (0, -5)] + [SAMPLE]
    # 3 atoms, 8 constant aggregates (35 words with the counts), 989 rules of 16 words and 35 of 15: 16,384 words.
    rule = [1, 3, 2, 1, 2, 1, 3, 8, 1, 2, 3, 4, 5, 6, 7]
    full = [3, 8] + [0, 1, -1, 0] * 8 + [1024] + (rule + [-8]) * 989 + (rule[:7] + [7] + rule[8:]) * 35
    assert len(full) == MOST_WORDS
    tables += [full, full + [0], full[:-1]]
    return [Case(table) for table in tables] + every_prefix(SAMPLE) + every_prefix(tables[1])


def plan_cases():
    """10 and 11, and their order with the others."""
    good, cyclic, short = [3, 0, 2, 2, 1, 2, 0, 0, 0, 1, 3, 0, 1, 1, 0], [1, 1, 0, 1, 0, 1, 1, 1, 1, 1, 1, 0, 0, 1, 1], [3, 0]
    heads = [2, 0, 3, 2, 1, 2, 0, 0, 0, 1, 1, 1, 2, 0, 0, 1, 2, 1, 1, 0, 0]
    cases = [Case(words, [], length) for words in ([], short, good, cyclic, heads, [257], [0] * 16385) for length in (0, 255)]
    cases += [Case(words, [], length) for words in ([0, 0, 0], good) for length in (256, 257)]
    plans = ([1, 0, 0], [0, 1, 1], [0, 1, 0], [1, 1, 0], [2, 0, 0], [0, 2, 0], [0, 0, 2], [0, 255, 3], [7, 1, 1], [1, 0])
    cases += [Case(good, plan) for plan in plans] + [Case(words, [2, 2]) for words in (cyclic[:-1], cyclic, heads, short)]
    for atom in (1, 128, 255, 256):
        plan = [0] * 256
        plan[atom - 1] = 1
        cases.append(Case([256, 0, 1, 1, atom, 0, 0, 0], plan))
        plan = plan[:]
        plan[min(atom, 255)] = 2
        cases.append(Case([256, 0, 1, 1, atom, 0, 0, 0], plan))
    for case in cases:
        case.plan = case.plan[: min(case.atoms(), case.length)]
    return cases
