#!/usr/bin/env bash
# Builds the oracle: the original Rust, unedited, beside stand-ins for what it leans on and Debian does not have.
# prepare.sh says what it wants.
set -eu
cd "$(dirname "$0")"
. ./prepare.sh
cargo build --offline --release
cargo test --offline --release --no-run --test regions16
