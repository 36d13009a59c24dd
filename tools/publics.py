#!/usr/bin/env python3
"""Every `pub` function of the libraries: whether it asks something of its caller, and what its contract says of the result and of each lent buffer.

    python3 tools/publics.py            prints a table, a row a function
    python3 tools/publics.py --counts   prints how many there are of each kind

Read off the contracts as they stand in `crates/*/src`, in the order of crates.txt; programs are left out. Of a result or a buffer a contract says

    =         it equals a value that the definitions give: nothing is left open
    = VIEW    what it stands for, seen through the view (`row`, `rows`, `view`, ..), equals such a value; bits that no view shows are left open
    RELATION  it stands in a relation to the input; docs/CONTRACTS.md says of each relation what it leaves open
    in part   equations for some of its parts, none for others
    -         nothing, but that the call is safe and ends

Standard library only.
"""

import os
import re
import sys

ROOT = os.path.join(os.path.dirname(os.path.abspath(__file__)), "..", "crates")
FUNCTION = re.compile(r'^[ ]*pub (?:extern "C" )?fn (\w+)(?:<.*?>)?\(', re.M)


def libraries():
    with open(os.path.join(ROOT, "..", "crates.txt"), encoding="utf-8") as file:
        names = [line.split(":")[0].split()[0] for line in file if ":" in line and not line.startswith("#")]
    return [name for name in names if os.path.exists(os.path.join(ROOT, name, "src", "lib.rt"))]


def closing(text, at, brackets="()"):
    """The index of the bracket that closes the one at `at`."""
    depth = 0
    while True:
        depth += {brackets[0]: 1, brackets[1]: -1}.get(text[at], 0)
        if depth == 0:
            return at
        at += 1


def contracts(text, at):
    """What stands in `requires` and in `ensures` from `at` on."""
    found = {"requires": [], "ensures": []}
    while True:
        clause = re.match(r"[^{]*?(requires|ensures)(\s+\w+)?\s*\{", text[at:])
        if not clause:
            return found
        end = closing(text, at + clause.end() - 1, "{}")
        found[clause.group(1)].append(" ".join(text[at + clause.end():end].split()))
        at = end + 1


def functions(path):
    """Name, parameters, result type and contracts of each `pub` function of a file."""
    with open(path, encoding="utf-8") as file:
        text = file.read()
    for match in FUNCTION.finditer(text):
        end = closing(text, match.end() - 1)
        result = re.match(r"\s*->\s*([^\n{]+)", text[end + 1:])
        yield match.group(1), text[match.end():end], result.group(1).strip() if result else "", contracts(text, end + 1)


def said(fact, thing):
    """What a contract says of a thing: `result`, or `b.new` for the later content of a buffer b."""
    name = re.escape(thing)
    if re.search(rf"{name} ≡ (true|false) →", fact):
        return "in part"
    if re.search(rf"(^|[(×] ?){name}(\.now)? ≡", fact):
        return "="
    view = re.search(rf"(^|[(×] ?)(\w+) \(?{name}(\.\w+)?\)?( 0)? ≡", fact)
    if view and view.group(2) != "length":
        return f"= `{view.group(2)}`"
    relation = re.search(rf"(^|× )([A-Z]\w+) [^×]*{name}", fact)
    if relation:
        return f"`{relation.group(2)}`"
    return "in part" if thing in fact else "-"


def most(sayings):
    """What the clauses of a contract say together: the first that says something."""
    return next((saying for saying in sayings if saying != "-"), "-")


def row_of(path, name, parameters, result, found):
    """The function, whether it asks something, what is said of the result, what of each buffer."""
    asks = "yes" if found["requires"] else "no"
    of_result = most([said(fact, "result") for fact in found["ensures"]]) if result else ""
    buffers = re.findall(r"(\w+): &mut", parameters)
    of_buffers = "; ".join(f"{buffer}: {most([said(fact, f'{buffer}.new') for fact in found['ensures']])}" for buffer in buffers)
    return f"{path}::{name}", asks, of_result, of_buffers


def rows():
    for crate in libraries():
        folder = os.path.join(ROOT, crate, "src")
        for file in sorted(os.listdir(folder)):
            path = crate if file == "lib.rt" else f"{crate}::{file[:-3]}"
            for function in functions(os.path.join(folder, file)):
                yield row_of(path, *function)


def main():
    table = list(rows())
    if sys.argv[1:] == ["--counts"]:
        kinds = [tuple(re.sub(r"\w+: ", "", part) for part in (asks, result, buffers)) for _, asks, result, buffers in table]
        for kind in sorted(set(kinds)):
            print(f"{kinds.count(kind):4}  asks: {kind[0]:3}  result: {kind[1] or 'none':14}  buffers: {kind[2] or 'none'}")
        print(f"{len(table):4}  functions")
        return
    print("| Function | Asks something | Result | Buffers |\n|---|---|---|---|")
    for function, asks, result, buffers in table:
        print(f"| `{function}` | {asks} | {result} | {buffers} |")


if __name__ == "__main__":
    main()
