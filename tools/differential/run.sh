#!/usr/bin/env bash
# Compares the unedited Rust with the proved library, log by log and answer by answer (tools/oracle/src/differential).
#
#   bash tools/differential/run.sh [--seed N] [--logs N] [--k 16|28] [--part NAME [--log N]]
#
# It makes the sample of the Rust's answers that crates/store_cases replays, and compares it with the stored one. Then,
# without --k it runs both builds of the Rust: regions of 2^28 bytes, and its test build with 2^16. --logs counts the random
# logs of each. It ends at the first difference, says how to see it again, and answers 1.
#   KADZHOMIR_LIB_DIR   a folder with another libnode.a (default: the proved one, by "rt lib" in crates/node)
#   RUST_SRC            see tools/oracle/prepare.sh
set -eu
cd "$(dirname "$0")/../.."
root=$PWD
out=$root/target/differential
mkdir -p "$out"
k="28 16"
words=()
while [ $# -gt 0 ]; do
    [ $# -gt 1 ] || { echo "$1 wants a value" >&2; exit 2; }
    if [ "$1" = --k ]; then k=$2; else words+=("$1" "$2"); fi
    shift 2
done

# What a quiet command says is shown where it fails.
quiet() {
    "$@" > "$out/build.log" 2>&1 || { tail -n 30 "$out/build.log"; exit 1; }
}

[ -n "${KADZHOMIR_LIB_DIR:-}" ] || (cd crates/node && quiet rt lib)
cd tools/oracle
. ./prepare.sh
quiet cargo build --offline --profile checked --features differential --bin differential --bin store
program28=target/checked/differential
quiet cargo test --offline --profile checked --features differential --no-run --test regions16
program16=$(sed -n 's/.*Executable .*(\(.*\))/\1/p' "$out/build.log")

# The sample of the Rust's answers that crates/store_cases replays without it: made anew, it must be what is stored there.
python3 ../model/store_cases.py ask "$out/asked"
target/checked/store "$out/asked" > "$out/answers"
python3 ../model/store_cases.py write "$out" "$out/answers"
for file in stdin stdout; do
    cmp "$out/$file" "$root/crates/store_cases/$file" || { echo "copy $out/std* to crates/store_cases if that is meant" >&2; exit 1; }
done
echo "sample: as stored in crates/store_cases"

for exponent in $k; do
    case $exponent in
    28) run=("$program28") ;;
    16) run=("$program16" differential) ;;
    *) echo "the Rust has k = 16 and k = 28" >&2; exit 2 ;;
    esac
    status=0
    "${run[@]}" ${words[@]+"${words[@]}"} > "$out/k$exponent" || status=$?
    cat "$out/k$exponent"
    [ "$status" -eq 0 ] || { echo "k = $exponent: the comparison ended with status $status"; exit 1; }
done
cd "$out"
for exponent in $k; do tail -n 1 "k$exponent"; done |
    awk '{ logs += $7; answers += $9; refusals += $11 } END { print "in all: " logs " logs, " answers " answers, " refusals " refusals in place of panics, 0 differences" }'
