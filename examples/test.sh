#!/bin/sh
# Builds the C and the Rust examples with cc and rustc alone, runs them, and compares what they print.
set -eu
cd "$(dirname "$0")/.."
dock=crates/dock/out/libdock.a
desk=crates/desk/out/libdesk.a
for library in dock desk; do
    if [ ! -f crates/$library/out/lib$library.a ]; then
        echo "no crates/$library/out/lib$library.a (rt lib in crates/$library makes it)"
        exit 1
    fi
done
mkdir -p target/examples
if command -v objdump >/dev/null && command -v python3 >/dev/null; then
    PYTHONDONTWRITEBYTECODE=1 python3 tools/probes.py $dock
    PYTHONDONTWRITEBYTECODE=1 python3 tools/probes.py $desk
fi
cc -std=c11 -Wall -Wextra -Werror -O2 -I include examples/c/plan.c $dock -o target/examples/plan_c
cc -std=c11 -Wall -Wextra -Werror -O2 -I include examples/c/aspif.c $desk $dock -o target/examples/aspif
cc -std=c11 -Wall -Wextra -Werror -O2 -I include examples/c/pins.c $desk $dock -o target/examples/pins_c
cc -std=c11 -Wall -Wextra -Werror -O2 -I include examples/c/plain.c $desk $dock -o target/examples/plain_c
rustc -O --edition 2021 -D warnings -L crates/dock/out -l static=dock examples/rust/plan.rs -o target/examples/plan_rust
for program in plan_c plan_rust; do
    "target/examples/$program" | diff - examples/expected
    echo "$program: ok"
done
{
    target/examples/aspif read <examples/night.aspif
    target/examples/aspif write <examples/plan.txt
    target/examples/aspif write <examples/plan.txt | target/examples/aspif read
    printf 'asp 1 0 0\n1 1 1 1 0 0\n0\n' | target/examples/aspif read || true
} | diff - examples/expected-aspif
echo "aspif: ok"
target/examples/pins_c | diff - examples/expected-pins
echo "pins_c: ok"
cc -std=c11 -Wall -Wextra -Werror -O2 -I include examples/c/list.c $desk $dock -o target/examples/list_c
target/examples/list_c | diff - examples/expected-list
echo "list_c: ok"
cc -std=c11 -Wall -Wextra -Werror -O2 -I include examples/c/relax.c $desk $dock -o target/examples/relax_c
target/examples/relax_c | diff - examples/expected-relax
echo "relax_c: ok"
target/examples/plain_c | diff - examples/expected-plain
echo "plain_c: ok"
cc -std=c11 -Wall -Wextra -Werror -O2 -I include examples/c/stored.c $desk $dock -o target/examples/stored_c
{
    target/examples/stored_c write target/examples/night.table <examples/plan.txt
    target/examples/stored_c read target/examples/night.table
    # one atom called "A", a fact
    printf '\001\000\001\000A\000\000\001\000\001\000\001\000\000\000\000\000\000\000' >target/examples/named.table
    target/examples/stored_c read target/examples/named.table || true
    printf '\001\000\000' >target/examples/cut.table
    target/examples/stored_c read target/examples/cut.table || true
} | diff - examples/expected-stored
echo "stored_c: ok"
