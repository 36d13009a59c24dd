#!/bin/sh
# Makes the gate's vectors: tools/vectors.sh OUT. Needs python3 and rustc. The files are the same every time.
#   OUT/cases.bin, cases.stdout, cases.sets   tools/cases.py says what they are
#   OUT/texts.bin, texts.stdout               tools/lines.py says what they are
# The baseline of bench/ is compared with all of them: another implementation of the same definition.
set -eu
export PYTHONDONTWRITEBYTECODE=1
out=$(cd "$1" && pwd)
cd "$(dirname "$0")/.."
mkdir -p target/bench
rustc -O --edition 2021 bench/src/check.rs -o target/bench/check
python3 tools/cases.py "$out"
python3 tools/lines.py tools/lines.txt tools/edges.txt "$out" target/bench/check
target/bench/check lines tools/lines.txt
target/bench/check cases "$out/cases.bin" "$out/cases.stdout"
target/bench/check whys crates/run_why/stdin crates/run_why/stdout
target/bench/check whys tools/dock/reasons/stdin tools/dock/reasons/stdout
