#!/usr/bin/env python3
"""Brings the repository's own definitions and lemmas to today's spelling: words in snake case, a dash only after a type's name.

usage: python3 tools/respell.py     at the top of a checkout in which port.py has just run

Names that are declared in crates/*/specs and crates/*/proofs are respelled wherever they stand: in .antt files, in the clauses and
comments of .rt files, in must-fail edits and in the pages (there between backquotes). Names of src/, goals and contexts that Rattle makes, and names of other libraries stay.
Two names of one module that would fall together are reported, and nothing is written.
"""
import collections
import os
import re
import sys

ROOT = sys.argv[1] if len(sys.argv) > 1 else "."
MODIFIERS = {"pub", "abbrev", "unfoldable", "opaque", "data", "record", "private"}
NO_NAME = {"let", "λ", "in", "use", "mod", "module", "infix", "infixl", "infixr", "where", "open", "elim", "rw", "with", "case", "if", "then", "else", "syntax", "ruleset", "--", "unfolding"}
SIGNS = {"=", "→", "↦", "|", "×", "≡", "∙", ";", "≤", "<", "+"}
TOKEN = re.compile(r"[^\s(){}\[\].,;\"`:⌜⌝]+")
# English words with a dash, and words of Rattle's, that are no names here
KEPT = {"must-fail", "case-by-case", "one-to-one"}


def files(ends):
    for folder, dirs, names in os.walk(os.path.join(ROOT, "crates")):
        dirs[:] = sorted(d for d in dirs if d != "out")
        for name in sorted(names):
            if name.endswith(ends):
                yield os.path.join(folder, name)


def declared(line):
    words = line.split()
    i = 0
    while i < len(words) and words[i] in MODIFIERS:
        i += 1
    names = []
    while i < len(words):
        w = words[i]
        if w == ":":
            return names
        if w[0] in "({":
            if not names:
                return []
            depth = 0
            for ch in " ".join(words[i:]):
                depth += (ch in "({") - (ch in ")}")
                if ch == ":" and depth == 0:
                    return names[:1]
            return []
        if w in NO_NAME or w in SIGNS or w.endswith(","):
            return []
        names.append(w)
        i += 1
    return []


def respelt(name):
    if name.startswith("◌") or name.startswith("+"):
        return name
    head, tail = "", name
    typed = re.match(r"^([A-Z][A-Za-z0-9]*)-(.+)$", name)
    if typed:
        head, tail = typed.group(1) + "-", typed.group(2)
    elif name[0].isupper():
        return name
    tail = re.sub(r"(?<=[a-z0-9])([A-Z])(?![A-Z])", lambda m: "_" + m.group(1).lower(), tail)
    tail = re.sub(r"(?<=[a-z0-9])([A-Z]+)", lambda m: "_" + m.group(1).lower(), tail)
    tail = tail.replace("-", "_").replace("′", "'")
    return head + tail


def of_function(path):
    """Whether the file belongs to the proof of one function: proofs/F/.."""
    return re.search(r"/proofs/.+/", path) is not None


def read(path):
    with open(path, encoding="utf-8") as f:
        return f.read()


def main():
    own, fields, goals = collections.defaultdict(set), set(), {}
    for path in files(".antt"):
        inside, here = None, set()
        for line in read(path).splitlines():
            if line.strip() and not line.startswith(" ") and not line.startswith("\t"):
                inside = "record" if re.match(r"(pub )?(abbrev )?record ", line) else None
            if line.lstrip().startswith("--"):
                continue
            for name in declared(line):
                if of_function(path) and (re.search(r": (tie|goal)\.", line) or name.endswith("-spec")):
                    here.add(name)
                    continue
                if inside == "record" and line.startswith(" "):
                    fields.add(name)
                own[name].add(path)
        goals[path] = here
    turned = {n: respelt(n) for n in own if respelt(n) != n and n not in KEPT}
    groups = collections.defaultdict(list)
    for n in own:
        groups[respelt(n)].append(n)
    for base, same in groups.items():
        # a lemma that would have its function's name gets `_lem`
        same.sort(key=lambda n: (not re.search(r"[a-z0-9][A-Z]", n), "-" in n, n))
        for i, n in enumerate(same[1:]):
            turned[n] = base + "_lem" + ("" if i == 0 else str(i + 1))
    new = [turned.get(n, n) for n in own]
    bad = [n for n, k in collections.Counter(new).items() if k > 1]
    if bad:
        print(f"fall together: {bad}")
        return 1
    changed = 0
    for path in list(files((".antt", ".rt", ".edit"))):
        old = read(path)
        new = turn(path, old, turned, fields, goals.get(path, set()))
        if new != old:
            changed += 1
            with open(path, "w", encoding="utf-8") as f:
                f.write(new)
    for folder, dirs, names in os.walk(ROOT):
        dirs[:] = sorted(d for d in dirs if d not in (".git", "out", "crates"))
        for path in (os.path.join(folder, n) for n in sorted(names) if n.endswith(".md")):
            old = read(path)
            new = re.sub(r"`[^`\n]*`", lambda m: TOKEN.sub(lambda w: turned.get(w.group(0), w.group(0)), m.group(0)), old)
            if new != old:
                changed += 1
                with open(path, "w", encoding="utf-8") as f:
                    f.write(new)
    print(f"{len(turned)} names respelt in {changed} files")
    return 0


def foreign(text):
    """Names that a file brings in from a module that is not this repository's, and not from a function's own generated modules."""
    out, aliases = set(), set()
    for m in re.finditer(r"use ([^\s{;]+?)(?:\.\{([^}]*)\})?( as ([^\s;]+))?;?$", text, re.M):
        mine = m.group(1).startswith("Rattle.") and not m.group(1).startswith("Rattle.std")
        made = re.search(r"\.(Statement|Tie|Reads|Lts|Goals|Given|contracts|declared)\b", m.group(1)) is not None
        if m.group(2) and not mine:
            out |= {x.split(" as ")[0].strip() for x in m.group(2).split(",")}
        if m.group(4) and (made or not mine):
            aliases.add(m.group(4))
    return out, aliases


def turn(path, text, turned, fields, goals):
    skip, aliases = foreign(text)
    rust, proof = path.endswith(".rt"), of_function(path)

    def one(line):
        comment = line.lstrip().startswith(("--", "//", "#"))

        def word(m):
            w, at = m.group(0), m.start()
            if w not in turned or w in skip or w in goals and proof:
                return w
            before = line[:at]
            if before.endswith(".") and not before.endswith(".{"):
                left = re.search(r"([^\s(){}\[\],;]+)\.$", before)
                path_of = left.group(1) if left else ""
                if path_of.startswith("Rattle.") or path_of in ("",):
                    pass
                elif w in fields and not (proof and "-" in w):
                    pass
                elif proof or rust or path_of in aliases:
                    return w
            if comment and "`" not in line and re.fullmatch(r"[a-z]+(-[a-z]+)*", w) and not re.search(r"(--|//)\s+%s\s{2,}" % re.escape(w), line) and "-" in w:
                return w
            return turned[w]

        if rust and not (comment or in_clause[0]):
            return line
        return TOKEN.sub(word, line)

    in_clause = [False]
    out = []
    for line in text.split("\n"):
        if rust:
            s = line.strip()
            if s.startswith(("ghost ", "requires", "ensures")) or " ghost " in line:
                in_clause[0] = True
            elif s.startswith(("{", "pub ", "fn ", "use ", "let ", "impl ", "}", "#")) and not s.startswith("{ "):
                in_clause[0] = False
        else:
            in_clause[0] = True
        out.append(one(line))
        if rust and in_clause[0] and line.strip().endswith(";") and line.strip().startswith("ghost use"):
            in_clause[0] = False
    return "\n".join(out)


if __name__ == "__main__":
    raise SystemExit(main())
