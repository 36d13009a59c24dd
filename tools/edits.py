#!/usr/bin/env python3
"""The table of must-fail edits in docs/CONTRACTS.md, made from the edits' own first lines.

    tools/edits.py            prints it
    tools/edits.py --write    puts it into the page
    tools/edits.py --check    fails where the page has another one, or an edit has no first line that says what it defends

Standard library only."""
import os
import sys

ROOT = os.path.dirname(os.path.dirname(os.path.abspath(__file__)))
PAGE = os.path.join(ROOT, "docs", "CONTRACTS.md")
BEGIN, END = "<!-- edits: begin -->", "<!-- edits: end -->"


def crates():
    with open(os.path.join(ROOT, "crates.txt"), encoding="utf-8") as f:
        return [line.split(":")[0].split()[0] for line in f if ":" in line.split("#")[0]]


def table():
    rows, bad = ["| Sentence | Edit |", "|---|---|"], []
    for crate in crates():
        folder = os.path.join(ROOT, "crates", crate, "must-fail")
        for name in sorted(os.listdir(folder)) if os.path.isdir(folder) else []:
            with open(os.path.join(folder, name), encoding="utf-8") as f:
                first = f.readline().strip()
            if not first.startswith("# "):
                bad.append(f"crates/{crate}/must-fail/{name}: no first line that says what it defends")
            rows.append(f"| {first[2:].replace('|', chr(92) + '|')} | `{crate}/{name[:-5]}` |")
    return "\n".join(rows), bad


def main():
    text, bad = table()
    with open(PAGE, encoding="utf-8") as f:
        page = f.read()
    if "--write" in sys.argv:
        before, rest = page.split(BEGIN)
        after = rest.split(END)[1]
        with open(PAGE, "w", encoding="utf-8") as f:
            f.write(f"{before}{BEGIN}\n{text}\n{END}{after}")
        return 0
    if "--check" not in sys.argv:
        print(text)
        return 0
    if BEGIN not in page or page.split(BEGIN)[1].split(END)[0].strip() != text.strip():
        bad.append("docs/CONTRACTS.md has another table than tools/edits.py prints")
    for b in bad:
        print(b)
    return 1 if bad else 0


if __name__ == "__main__":
    sys.exit(main())
