#!/usr/bin/env python3
"""Which definitions a reader has to believe: those that the contracts of the public functions reach.

    tools/believed.py            prints the table for docs/ARCHITECTURE.md, "What is to be believed"
    tools/believed.py --check    fails where the page has another table, or a file's header says otherwise
    tools/believed.py --why NAME prints by which chain a definition is reached

A definition is a name that a file of crates/*/specs/ defines. It is reached if the contract of a public function names it, or a reached definition does.
A file whose definitions are reached says "to be believed" in its header; no other file does, except one of a request under way: "to be believed once a public function of request N stands on them". Standard library only."""
import os
import re
import sys

ROOT = os.path.dirname(os.path.dirname(os.path.abspath(__file__)))
PAGE = os.path.join(ROOT, "docs", "ARCHITECTURE.md")
BEGIN, END = "<!-- believed: begin -->", "<!-- believed: end -->"
# where the functions stand that someone outside the repository calls
PUBLIC = [
    "results/src/lib.rt", "solver/src/lib.rt", "plain/src/lib.rt", "text/src/reader.rt", "text/src/printer.rt", "reply/src/lib.rt",
    "aspif_read/src/lib.rt", "aspif_write/src/lib.rt", "stored/src/lib.rt", "pins/src/lib.rt", "show/src/lib.rt",
]
PUBLIC_FOLDERS = ["dock/src", "desk/src"]
WORD = r"[^\s(){}\[\]⌜⌝,;.λ:=]+"


def read(path):
    with open(path, encoding="utf-8") as f:
        return f.read()


def uncommented(text, mark):
    return "\n".join(line.split(mark)[0] if mark in line else line for line in text.split("\n"))


def imports(text, crate):
    """The names that a file brings in: local name -> (crate, module, name); name None: all of the module, under a short name."""
    found = {}
    for m in re.finditer(r"(?:ghost )?use (Rattle\.\S+?)(?:\.\{([^}]*)\}|(?: as (\S+?))?);?\s*$", text, re.M):
        path, names, short = m.group(1), m.group(2), m.group(3)
        parts = path.split(".")
        home = parts[1]
        module = ".".join(parts[3:]) if len(parts) > 3 and parts[2] == "specs" else ".".join(parts[2:])
        if names is not None:
            for n in names.split(","):
                n = n.strip()
                if " as " in n:
                    n, local = [x.strip() for x in n.split(" as ")]
                else:
                    local = n
                if n:
                    found[local] = (home, module, n)
                    if "◌" in n:
                        found[n.replace("◌", "")] = (home, module, n)
        elif short:
            found[short] = (home, module, None)
    return found


def definitions(text):
    """The definitions of a file: name -> its text. Constructors of a data type lead to the type."""
    blocks, names, current = {}, {}, None
    for line in uncommented(text, "--").split("\n"):
        m = re.match(r"^(\s*)(abbrev |unfoldable |opaque )?(pub )?(record |data )?(\S+)(.*)$", line)
        starts = False
        if m and line.strip() and not line.strip().startswith(("use ", "pub mod", "infix", "module ", "open ")):
            kind = m.group(4)
            starts = bool(m.group(2)) or bool(kind) or (bool(m.group(3)) and len(m.group(1)) == 0)
        if starts:
            current = m.group(5)
            blocks.setdefault(current, "")
            names[current] = current
            if "◌" in current:
                names[current.replace("◌", "")] = current
            isdata = bool(m.group(4)) and m.group(4).strip() == "data"
            indent = len(m.group(1))
        elif current and re.match(r"^\s*module ", line):
            current = None
        if current:
            blocks[current] += line + "\n"
            if isdata and not starts:
                c = re.match(r"^\s+((?:[^\s:(]+\s+)*[^\s:(]+)\s*:", line)
                if c:
                    for n in c.group(1).split():
                        names.setdefault(n, current)
    return blocks, names


def load():
    files = {}
    base = os.path.join(ROOT, "crates")
    for crate in sorted(os.listdir(base)):
        folder = os.path.join(base, crate, "specs")
        for name in sorted(os.listdir(folder)) if os.path.isdir(folder) else []:
            if name.endswith(".antt") and name != "Lib.antt":
                text = read(os.path.join(folder, name))
                blocks, names = definitions(text)
                files[(crate, name[:-5])] = {"text": text, "blocks": blocks, "names": names, "imports": imports(uncommented(text, "--"), crate)}
    return files


def uses(words, found, files, own=None):
    """The definitions that a text names."""
    out = set()
    for w in words:
        if own and w in files[own]["names"]:
            out.add((own[0], own[1], files[own]["names"][w]))
        elif w in found:
            home, module, name = found[w]
            key = (home, module)
            if name is not None and key in files and name in files[key]["names"]:
                out.add((home, module, files[key]["names"][name]))
    return out


def tokens(text):
    out = set(re.findall(WORD, text))
    return out | {t.strip("`") for t in out}


def contracts():
    base = os.path.join(ROOT, "crates")
    paths = [p for p in PUBLIC if os.path.isfile(os.path.join(base, p))]
    for folder in PUBLIC_FOLDERS:
        if os.path.isdir(os.path.join(base, folder)):
            paths += [f"{folder}/{n}" for n in sorted(os.listdir(os.path.join(base, folder))) if n.endswith(".rt")]
    for p in paths:
        crate = p.split("/")[0]
        text = uncommented(read(os.path.join(base, p)), "//")
        found = imports(text, crate)
        for m in re.finditer(r"pub (?:extern \"C\" )?fn (\w+)(.*?)\n\s*\{\s*\n", text, re.S):
            clauses = "\n".join(re.findall(r"(?:ensures|requires)[^{]*\{(.*?)\}\s*$", m.group(2), re.S | re.M)) or m.group(2)
            # a function that asks something of its caller is an inner one
            if "ensures" in m.group(2) and "requires" not in m.group(2):
                yield f"{crate}::{m.group(1)}", tokens(clauses), found


def reached(files):
    why, todo = {}, []
    for function, words, found in contracts():
        for d in uses(words, found, files):
            if d not in why:
                why[d] = function
                todo.append(d)
    while todo:
        d = todo.pop()
        f = files[(d[0], d[1])]
        for e in uses(tokens(f["blocks"][d[2]]), f["imports"], files, (d[0], d[1])):
            if e not in why:
                why[e] = d
                todo.append(e)
    return why


def order():
    out = []
    for line in read(os.path.join(ROOT, "crates.txt")).split("\n"):
        if ":" in line.split("#")[0]:
            out.append(line.split(":")[0].split()[0])
    return out


def table(files, why):
    rows = ["| File | Definitions |", "|---|---|"]
    for crate in order():
        for key in files:
            if key[0] == crate:
                names = [n for n in files[key]["blocks"] if (key[0], key[1], n) in why]
                if names:
                    rows.append(f"| `{crate}/specs/{key[1]}.antt` | " + ", ".join(f"`{n}`".replace("|", "\\|") for n in names) + " |")
    return "\n".join(rows)


def main():
    files = load()
    why = reached(files)
    if len(sys.argv) == 3 and sys.argv[1] == "--why":
        for d in why:
            if d[2] == sys.argv[2]:
                while isinstance(d, tuple):
                    print("/".join(d))
                    d = why[d]
                print(d)
        return 0
    text = table(files, why)
    if "--check" not in sys.argv:
        print(text)
        return 0
    bad = []
    page = read(PAGE)
    if BEGIN not in page or page.split(BEGIN)[1].split(END)[0].strip() != text.strip():
        bad.append("docs/ARCHITECTURE.md has another table than tools/believed.py prints")
    for key, f in files.items():
        header = []
        for line in f["text"].split("\n"):
            if not line.startswith("--"):
                break
            header.append(line)
        said = re.sub(r"\s+", " ", " ".join(h[2:] for h in header))
        says = "to be believed" in said.replace("to be believed once a public function of request", "")
        is_reached = any((key[0], key[1], n) in why for n in f["blocks"])
        if says != is_reached:
            bad.append(f"crates/{key[0]}/specs/{key[1]}.antt: " + ("says that it is to be believed, and no contract reaches it" if says else "a public contract reaches it, and its header does not say that it is to be believed"))
    for b in bad:
        print(b)
    print(f"{len(bad)} differences")
    return 1 if bad else 0


if __name__ == "__main__":
    sys.exit(main())
