#!/bin/sh
# Times the library against the same defined search in plain Rust: bench/run.sh. Needs rustc; run `rt lib` in crates/dock first.
# `bench/run.sh check` compares the baseline with the vectors instead.
set -eu
export PYTHONDONTWRITEBYTECODE=1
cd "$(dirname "$0")/.."
mkdir -p target/bench
if [ "${1:-}" = check ]; then
    rustc -O --edition 2021 bench/src/check.rs -o target/bench/check
    python3 tools/cases.py target/bench
    target/bench/check lines tools/lines.txt
    target/bench/check cases target/bench/cases.bin target/bench/cases.stdout
    target/bench/check whys crates/run_why/stdin crates/run_why/stdout
    target/bench/check whys tools/dock/reasons/stdin tools/dock/reasons/stdout
    exit
fi
library=crates/dock/out
if [ -f "$library/libdock.a" ]; then
    if command -v objdump >/dev/null && command -v python3 >/dev/null; then
        python3 tools/probes.py "$library/libdock.a"
    fi
    rustc -O --edition 2021 --cfg dock --check-cfg 'cfg(dock)' -L "$library" -l static=dock bench/src/main.rs -o target/bench/bench
else
    echo "no $library/libdock.a (rt lib in crates/dock makes it)"
    rustc -O --edition 2021 --check-cfg 'cfg(dock)' bench/src/main.rs -o target/bench/bench
fi
exec target/bench/bench
