#!/usr/bin/env bash
# Measures how recovery's time grows with the log: proves and builds the crate node, and runs growth.c against it.
# A command of its own: no test needs it. It wants rt, gcc and an x86-64 machine.
set -eu
cd "$(dirname "$0")/../.."
out=target/bench
mkdir -p "$out"
if ! (cd crates/node && rt lib) > "$out/staticlib.log" 2>&1; then
    tail -n 20 "$out/staticlib.log"
    exit 1
fi
gcc -std=c11 -O2 -Wall -Wextra -I include -o "$out/growth" tools/bench/growth.c crates/node/out/libnode.a -lm
exec "$out/growth"
