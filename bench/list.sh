#!/bin/sh
# Times the listing of the first 10,000 plans of the benchmark's night plans: bench/list.sh. Needs rustc; run `rt lib` in crates/desk first. Where there is clasp, it
# lists as many of the same tables, as aspif.
set -eu
cd "$(dirname "$0")/.."
library=crates/desk/out
[ -f "$library/libdesk.a" ] || { echo "no $library/libdesk.a (rt lib in crates/desk makes it)"; exit 1; }
mkdir -p target/bench
rustc -O --edition 2021 -L "$library" -l static=desk bench/src/listing.rs -o target/bench/listing
target/bench/listing target/bench
if command -v clasp >/dev/null; then
    for file in target/bench/night-*.aspif; do
        echo "clasp, $file: $(clasp -n 10000 -q "$file" | grep -E '^(Models|Time)' | tr -s ' ' | tr '\n' ' ')"
    done
fi
