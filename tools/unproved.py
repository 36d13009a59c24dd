#!/usr/bin/env python3
"""The library without proofs, in seconds: for measuring stack, instructions and time while the code is being changed. Nothing is proved by it, and it is not what ships.

    python3 tools/unproved.py [REPOSITORY]     writes REPOSITORY/target/unproved/libdock.a (this repository by default)

`rt try` compiles a program from the sources of all libraries. So crate `dock` is made a program with an empty `main`; the kit's compiler is called through a
script that keeps the module which it is given; to that module come the C entries (a slice is a pointer and a length), and it is compiled with the flags that
the library is built with. Its stack and its instruction counts were those of the
proved library exactly, wherever both were measured. Only kits that have `rattle-cases` do this: today's compiles unproved sources with checks put in, so measure
crates/dock/out/libdock.a, which `rt lib` makes.
"""

import os
import re
import shutil
import subprocess
import sys
import tempfile

FLAGS = ("--target=x86_64-unknown-linux-gnu -march=x86-64 -ffunction-sections -fdata-sections -mllvm -trap-unreachable -mllvm -no-trap-after-noreturn "
         "--no-default-config -no-canonical-prefixes -fintegrated-cc1 -fno-crash-diagnostics -fPIE").split()
BEST = "-O3 -Xclang -fmerge-functions -mllvm -mergefunc-use-aliases".split()


def dependencies(repository):
    """Each crate of crates.txt with those that it names."""
    crates = {}
    with open(f"{repository}/crates.txt", encoding="utf-8") as file:
        for line in file:
            name, found, rest = line.split("#")[0].partition(":")
            if found:
                crates[name.split()[0]] = rest.split()
    return crates


def reached(crates, name):
    found, todo = [], list(crates[name])
    while todo:
        crate = todo.pop()
        if crate not in found:
            found.append(crate)
            todo += crates.get(crate, [])
    return found


def module(kit, repository, room):
    """The module of the whole library, before any optimisation, as text."""
    clang = f"{kit}/on/x86_64/toolchain/bin/clang"
    os.makedirs(f"{room}/kit/bin")
    os.symlink(f"{kit}/toolchain/lib", f"{room}/kit/lib")
    for tool in ("ld.lld", "llvm-ar"):
        os.symlink(clang, f"{room}/kit/bin/{tool}")
    with open(f"{room}/kit/bin/clang", "w", encoding="utf-8") as script:
        script.write(f'#!/bin/sh\n[ -e {room}/module.bc ] || cp module.bc {room}/module.bc 2>/dev/null\nexec {clang} "$@"\n')
    os.chmod(f"{room}/kit/bin/clang", 0o755)
    shutil.copytree(f"{repository}/crates/dock/src", f"{room}/src")
    os.rename(f"{room}/src/lib.rt", f"{room}/src/main.rt")
    with open(f"{room}/src/main.rt", "a", encoding="utf-8") as main:
        main.write("\nfn main() {}\n")
    crates = dependencies(repository)
    words = [f"{kit}/on/x86_64/bin/rattle-cases", "--toolchain", f"{room}/kit", f"{room}/src/main.rt", "--crate-name", "dock",
             "--lib", f"std={kit}/libs/std/src/lib.rt"]
    for crate in reached(crates, "dock"):
        home = f"{repository}/crates" if crate in crates else f"{kit}/libs"
        words += ["--lib", f"{crate}={home}/{crate}/src/lib.rt"]
    said = subprocess.run(words, capture_output=True, text=True)
    if said.returncode:
        sys.exit(said.stdout + said.stderr)
    subprocess.check_call([clang, *FLAGS[:1], "-S", "-emit-llvm", "-Xclang", "-disable-llvm-passes", "-x", "ir", f"{room}/module.bc", "-o", f"{room}/module.ll", "-O0"])
    with open(f"{room}/module.ll", encoding="utf-8") as file:
        return file.read().replace("define i32 @main()", "define internal i32 @unused()")


def entry(name, parameters, text):
    """The C entry over the function of that name: slices from pointers and lengths."""
    full, marks = re.search(rf'define internal noundef i32 @("[\w:]*::{name}")\(.*\) (#\d+ )?\{{', text).groups()
    taken, made, handed = [], [], []
    for i, parameter in enumerate(p for p in parameters.split(",") if p.strip()):
        kind = parameter.split(":", 1)[1].strip()
        if re.match(r"&(mut )?\[\w+\]$", kind):
            taken += [f"ptr %p{i}", f"i64 %n{i}"]
            made += [f"%s{i} = alloca [16 x i8], align 8", f"store ptr %p{i}, ptr %s{i}, align 8",
                     f"%l{i} = getelementptr i8, ptr %s{i}, i64 8", f"store i64 %n{i}, ptr %l{i}, align 8"]
            handed.append(f"ptr %s{i}")
        else:
            sort = "ptr" if kind.startswith("&") else "i32"
            taken.append(f"{sort} %p{i}")
            handed.append(f"{sort} %p{i}")
    body = "\n  ".join([*made, f"%r = call i32 @{full}({', '.join(handed)})", "ret i32 %r"])
    return f"define i32 @{name}({', '.join(taken)}) {marks or ''}{{\n  {body}\n}}\n"


def main():
    repository = os.path.abspath(sys.argv[1] if len(sys.argv) > 1 else os.path.join(os.path.dirname(__file__), ".."))
    guide = subprocess.run(["rt", "doc"], capture_output=True, text=True, check=True).stdout.strip()
    kit = os.path.realpath(os.path.join(os.path.dirname(guide), ".."))
    if not os.path.exists(f"{kit}/on/x86_64/bin/rattle-cases"):
        sys.exit("this kit compiles unproved sources only with checks put in: measure crates/dock/out/libdock.a (rt lib in crates/dock makes it)")
    out = f"{repository}/target/unproved"
    os.makedirs(out, exist_ok=True)
    with tempfile.TemporaryDirectory() as room:
        text = module(kit, repository, room)
        source = ""
        for file in sorted(os.listdir(f"{room}/src")):
            with open(f"{room}/src/{file}", encoding="utf-8") as part:
                source += part.read()
        entries = "".join(entry(name, parameters, text) for name, parameters in re.findall(r'pub extern "C" fn (\w+)\(([^)]*)\)', source))
        at = text.index("\nattributes #")
        with open(f"{room}/library.ll", "w", encoding="utf-8") as file:
            file.write(text[:at] + "\n" + entries + text[at:])
        tools = f"{kit}/on/x86_64/toolchain/bin"
        subprocess.check_call([f"{tools}/clang", *FLAGS, *BEST, "-c", "-x", "ir", f"{room}/library.ll", "-o", f"{room}/library.o"])
        if os.path.exists(f"{out}/libdock.a"):
            os.remove(f"{out}/libdock.a")
        subprocess.check_call([f"{tools}/llvm-ar", "rcs", f"{out}/libdock.a", f"{room}/library.o"])
    print(f"{out}/libdock.a: not proved, for measuring only")


main()
