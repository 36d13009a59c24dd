#!/usr/bin/env python3
"""The gate's cases: many small tables, and what the definition says of each by enumeration (`enumerate.py`).

    python3 tools/cases.py OUT       writes OUT/cases.bin, OUT/cases.stdout, OUT/cases.sets

The random numbers have a fixed seed, so a run writes the same files each time.

cases.bin, read by the program `run_tables`: one case after the other up to the end of the file. All of it is
numbers. A number from -4 to 250 is one byte, the number plus 4; any other is the byte 255 and four bytes,
low byte first, two's complement. A case is

    W   the number of words of the table, 0 to 16,385
    P   the length of the plan buffer in bytes, 0 to 257
    S   the number of plan bytes that are given, 0 to the lower of P and N
    W words, then S plan bytes.

The plan buffer is the S given bytes, then bytes 7 up to its length P.

cases.stdout: what the program must print, one line a case, parts joined by ` / `:

    1. solve with limit 4294967295 on the plan buffer: `answer` with a space and the number of each true
       atom (read from the buffer), or `none`, or `refused NUMBER PLACE`;
    2. the checksum of all P bytes of the buffer after that call;
    3. approve of the buffer as it was given: `yes`, `no` or `refused NUMBER PLACE`;
    4. only if 3 is no refusal and N is at most 6: the buffer as given, its first N bytes replaced by the
       bits of c (byte i-1 is bit i-1 of c) for c from 0 to 2^N - 1, each approved; printed are how many were
       `yes`, a space, and the checksum of the numbers c that were.

Checksum of numbers x1, x2, ..: h is 1 at first; each x makes it (h * 33 + x + 1) % 65521.

cases.sets: for every case all its answer sets in 01's order, `;` after each, or the refusal.
"""

import random
import sys

from enumerate import MOST_WORDS, Refused, answer_sets, atoms_of, read_table
from generate import damaged_cases, limit_cases, list_cases, plan_cases, random_cases, word_cases

SEED = 20240117


# ---- What the program `run_tables` has to print for a case -----------------------------------------------------


def checksum(numbers):
    h = 1
    for x in numbers:
        h = (h * 33 + x + 1) % 65521
    return h


def result_of(case, cycles):
    """The program with its answer sets, or the refusal that solve gives: 1, 10, then the words."""
    if len(case.words) <= MOST_WORDS and case.length < 256:
        raise Refused(10, 0)
    program = read_table(case.words, cycles)
    return program, answer_sets(program)


def line_of(case, cycles=False):
    """The case's line for cases.stdout and its line for cases.sets; with `cycles` where head cycles are taken."""
    buffer = case.plan + [7] * (case.length - len(case.plan))
    try:
        program, sets = result_of(case, cycles)
    except Refused as refused:
        text = f"refused {refused.number} {refused.place}"
        return f"{text} / {checksum(buffer)} / {text}", text
    n = program.atoms
    after = buffer
    solved = "none"
    if sets:
        solved = " ".join(["answer"] + [str(atom) for atom in atoms_of(sets[0])])
        after = [sets[0] >> i & 1 for i in range(n)] + buffer[n:]
    parts = [solved, str(checksum(after)), approved(buffer, n, sets)]
    if not parts[2].startswith("refused") and n <= 6:
        parts.append(f"{len(sets)} {checksum(sorted(sets))}")
    return " / ".join(parts), "".join(" ".join(map(str, atoms_of(x))) + ";" for x in sets)


def approved(buffer, n, sets):
    for i in range(n):
        if buffer[i] > 1:
            return f"refused 11 {i}"
    return "yes" if sum(buffer[i] << i for i in range(n)) in sets else "no"


def bytes_of(number):
    if -4 <= number <= 250:
        return bytes([number + 4])
    return b"\xff" + number.to_bytes(4, "little", signed=True)


def encoded(case):
    assert len(case.words) <= MOST_WORDS + 1 and len(case.plan) <= case.length <= 257
    numbers = [len(case.words), case.length, len(case.plan)] + case.words + case.plan
    return b"".join(map(bytes_of, numbers))


# ---- The files -----------------------------------------------------------------------------------------------


def all_cases():
    rng = random.Random(SEED)
    fixed = word_cases() + limit_cases() + list_cases() + plan_cases()
    return fixed + damaged_cases(rng, 80) + random_cases(rng, 3200, 120)


def check_examples():
    """01's cases A to N; the words of most begin `word_cases`."""
    expected = [";", "", ";", "1;2;", "refused 8 1", "1 2 3;", "1 2;", ";", "2;", "refused 9 1", "1 2 3;", "1 2;"]
    expected += ["refused 2 0", "refused 4 0", "refused 3 3", ";", "", "refused 5 4", "refused 6 5"]
    found = [line_of(case)[1] for case in word_cases()[: len(expected)]]
    assert found == expected, found


def write_files(out):
    check_examples()
    cases = all_cases()
    lines = [line_of(case) for case in cases]
    with open(f"{out}/cases.bin", "wb") as file:
        file.write(b"".join(map(encoded, cases)))
    with open(f"{out}/cases.stdout", "w", encoding="ascii") as file:
        file.writelines(line + "\n" for line, _ in lines)
    with open(f"{out}/cases.sets", "w", encoding="ascii") as file:
        file.writelines(sets + "\n" for _, sets in lines)
    print_counts(lines)


def print_counts(lines):
    counts = {}
    for line, sets in lines:
        first = line.split(" ")
        key = " ".join(first[:2]) if first[0] == "refused" else first[0] + (" of several" if sets.count(";") > 1 else "")
        counts[key] = counts.get(key, 0) + 1
    for key in sorted(counts):
        print(f"{counts[key]:6} {key}")
    print(f"{len(lines):6} cases")


def main():
    if len(sys.argv) != 2:
        sys.exit(__doc__)
    write_files(sys.argv[1])


if __name__ == "__main__":
    main()
