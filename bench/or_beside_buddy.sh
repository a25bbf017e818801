#!/bin/sh
# Measures OR beside BuDDy: proves and builds the node room (`rt lib` in crates/nodes_c), links it with BuDDy and runs both in one program.
# BuDDy is Debian's libbdd-dev; BUDDY names the folder with include/ and lib/ where it is not installed in /usr.
set -e
cd "$(dirname "$0")/.."
buddy=${BUDDY:-/usr}
lib=$(find "$buddy/lib" -name libbdd.a | head -1)
mkdir -p target
(cd crates/nodes_c && rt lib) | tail -1
gcc -O2 -I"$buddy/include" bench/or_beside_buddy.c crates/nodes_c/out/libnodes_c.a "$lib" -lm -lstdc++ -o target/or_beside_buddy
for size in "20 40 5" "24 20 4" "40 9 4"; do
    echo "variables, products of each function, variables of each: $size"
    # shellcheck disable=SC2086
    target/or_beside_buddy $size ${REPEATS:-200}
done
