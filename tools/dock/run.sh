#!/bin/sh
# Tests the libraries that ship: builds libdock.a and libdesk.a, looks for the back end's fault in them, and runs all tables and texts of the gate over them
# through C, with the kit's own compiler and linker. Ends with status 0 only if every line is the expected one.
set -eu
cd "$(dirname "$0")/../.."
kit=$(dirname "$(rt doc)")
tools=$kit/toolchain/bin
lib=$kit/toolchain/lib
(cd crates/dock && rt lib)
(cd crates/desk && rt lib)
dock=crates/dock/out/libdock.a
desk=crates/desk/out/libdesk.a
if command -v objdump >/dev/null && command -v python3 >/dev/null; then
    PYTHONDONTWRITEBYTECODE=1 python3 tools/probes.py "$dock"
    PYTHONDONTWRITEBYTECODE=1 python3 tools/probes.py "$desk"
    echo "dock: no probe loop behind a function's entry"
else
    echo "dock: not looked for probe loops, since there is no objdump or no python3"
fi
if command -v nm >/dev/null; then
    needed=$(nm -u "$dock" "$desk")
    for name in $(echo "$needed" | awk '$1 == "U" { print $2 }' | sort -u); do
        case $name in
            memcpy | memset) ;;
            *) echo "dock: the libraries need $name from outside" && exit 1 ;;
        esac
    done
    echo "dock: the libraries need memcpy and memset, and nothing else"
else
    echo "dock: not looked for what the libraries need, since there is no nm"
fi
mkdir -p target/dock
for program in runs pins stored relax; do
    "$tools/clang" -std=c11 -Wall -Wextra -Werror -O2 -ffreestanding -fPIE -I include -c tools/dock/$program.c -o target/dock/$program.o
    "$tools/ld.lld" -pie -melf_x86_64 -z relro -z now -z noexecstack -dynamic-linker /lib64/ld-linux-x86-64.so.2 -o target/dock/$program \
        "$lib/Scrt1.o" "$lib/crti.o" "$lib/crtbeginS.o" target/dock/$program.o "$desk" "$dock" \
        "$lib/libc.so.6" "$lib/libc_nonshared.a" "$lib/ld-linux-x86-64.so.2" "$lib/libgcc.a" "$lib/crtendS.o" "$lib/crtn.o"
done
target/dock/runs tables <crates/run_tables/stdin | cmp - crates/run_tables/stdout
echo "dock: $(wc -l <crates/run_tables/stdout) tables through C: as expected"
target/dock/runs texts <crates/run_texts/stdin | cmp - crates/run_texts/stdout
echo "dock: $(wc -l <crates/run_texts/stdout) texts through C: as expected"
target/dock/runs whys <crates/run_why/stdin | cmp - crates/run_why/stdout
echo "dock: $(($(wc -l <crates/run_why/stdout) / 2)) explained plans through C: as expected"
target/dock/runs whys <tools/dock/reasons/stdin | cmp - tools/dock/reasons/stdout
echo "dock: $(($(wc -l <tools/dock/reasons/stdout) / 2)) calls with aggregates' reasons through C: as expected"
target/dock/runs passes <tools/dock/passes/stdin | cmp - tools/dock/passes/stdout
echo "dock: the passes of $(wc -l <tools/dock/passes/stdout) calls through C: as expected"
target/dock/pins scripts <tools/dock/pins/scripts | cmp - tools/dock/pins/scripts.stdout
echo "dock: $(wc -l <tools/dock/pins/scripts) calls of sessions through C: as expected"
target/dock/pins sets <tools/dock/pins/sets | cmp - tools/dock/pins/sets.stdout
echo "dock: $(wc -l <tools/dock/pins/sets.stdout) sets of up to three pins through C: as the enumerator has them"
test "$(target/dock/pins wild)" = "wild: as it should be"
echo "dock: calls on sessions that no open made: no harm"
target/dock/runs lists <tools/dock/lists/stdin | cmp - tools/dock/lists/stdout
echo "dock: $(($(wc -l <tools/dock/lists/stdout) / 2)) listings through C: as expected"
target/dock/runs all <crates/run_tables/stdin | cmp - tools/dock/lists/all
echo "dock: all plans of $(grep -c -v '^-' tools/dock/lists/all) tables through C: as expected"
cycles=tools/dock/cycles
target/dock/runs tables cycles <$cycles/tables | cmp - $cycles/tables.stdout
echo "dock: $(wc -l <$cycles/tables.stdout) tables with head cycles through C: as the enumerator has them"
target/dock/runs tables cycles <crates/run_tables/stdin | cmp - $cycles/old.stdout
echo "dock: $(wc -l <$cycles/old.stdout) tables in the mode that takes head cycles, as the enumerator has them"
target/dock/runs whys cycles <$cycles/solve | cmp - $cycles/solve.stdout
target/dock/runs passes cycles <$cycles/solve | cmp - $cycles/passes.stdout
target/dock/runs checks cycles <$cycles/check | cmp - $cycles/check.stdout
target/dock/runs plainly cycles <$cycles/plain | cmp - $cycles/plain.stdout
target/dock/runs lists cycles <$cycles/list | cmp - $cycles/list.stdout
echo "dock: with head cycles $(wc -l <$cycles/passes.stdout) calls that solve, $(wc -l <$cycles/check.stdout) that check, $(wc -l <$cycles/plain.stdout) plain, $(($(wc -l <$cycles/list.stdout) / 2)) listings through C: as expected"
target/dock/runs tables both cycles <$cycles/tables
target/dock/runs whys both cycles <$cycles/solve
target/dock/runs tables both <crates/run_tables/stdin
target/dock/runs texts both <crates/run_texts/stdin
target/dock/runs whys both <crates/run_why/stdin
target/dock/runs passes both <tools/dock/passes/stdin
target/dock/runs read <crates/run_aspif_read/stdin | cmp - crates/run_aspif_read/stdout
echo "dock: $(wc -l <crates/run_aspif_read/stdout) texts of aspif read through C: as expected"
target/dock/runs write <crates/run_aspif_write/stdin | cmp - crates/run_aspif_write/stdout
echo "dock: $(grep -c "^wrote\|^refused" crates/run_aspif_write/stdout) tables written as aspif through C: as expected"
target/dock/relax <tools/dock/relax/stdin | cmp - tools/dock/relax/stdout
echo "dock: $(wc -l <tools/dock/relax/stdout) calls that give up constraints through C: as expected"
target/dock/stored cases <tools/dock/stored/stdin | cmp - tools/dock/stored/stdout
echo "dock: $(wc -l <tools/dock/stored/stdout) tables stored and restored through C: as expected"
target/dock/stored tables <crates/run_tables/stdin
for texts in crates/run_texts crates/run_why tools/dock/reasons tools/dock/passes; do
    target/dock/stored texts <$texts/stdin
done
if command -v cc >/dev/null && command -v rustc >/dev/null; then
    sh examples/test.sh
else
    echo "dock: the C and the Rust example were not run, since there is no cc or no rustc"
fi
