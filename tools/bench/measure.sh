#!/usr/bin/env bash
# Measures append, walk, recovery and lookups of the unedited Rust and of the proved library, with the same inputs in one process
# (tools/oracle/src/measure.rs), and prints tables for docs/PERFORMANCE.md. A machine with other work gives a wide spread: the last
# table, of instructions counted by valgrind, does not depend on that.
#   KADZHOMIR_LIB_DIR   a folder with another libnode.a (default: the proved one, by "rt lib" in crates/node)
#   RUST_SRC            see tools/oracle/prepare.sh
set -eu
cd "$(dirname "$0")/../.."
out=$PWD/target/bench
mkdir -p "$out"

quiet() {
    "$@" > "$out/measure.log" 2>&1 || { tail -n 30 "$out/measure.log"; exit 1; }
}

[ -n "${KADZHOMIR_LIB_DIR:-}" ] || (cd crates/node && quiet rt lib)
cd tools/oracle
. ./prepare.sh
quiet cargo build --offline --release --features differential --bin measure
program=target/release/measure
"$program"

# Instructions of so many calls, with what stands around them.
instructions() {
    valgrind --tool=callgrind --callgrind-out-file=/dev/null "$program" "$@" 2>&1 | sed -n 's/.*Collected : //p'
}

# What one call takes: twelve calls less two, over ten.
one() {
    echo $((($(instructions "$1" "$2" 12) - $(instructions "$1" "$2" 2)) / 10))
}

command -v valgrind > /dev/null || { echo "no valgrind: instructions are not counted"; exit 0; }
printf '\nInstructions of one call (valgrind)\n\n| | Rust | port | ratio |\n|---|---|---|---|\n'
for what in "walk:walk, 1,000 entries of 1 KiB" "recovery:recovery, 1,000 blocks" "get_block:get_block, 1,000 blocks"; do
    rust=$(one "${what%%:*}" rust)
    port=$(one "${what%%:*}" port)
    printf '| %s | %s | %s | %s |\n' "${what#*:}" "$rust" "$port" "$(echo "$port $rust" | awk '{ printf "%.2f", $1 / $2 }')"
done
