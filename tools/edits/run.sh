#!/usr/bin/env bash
# run.sh [NAME ..]
#
# Tries the must-fail edits of tools/edits/NAME, of the named crates or of all: each is applied to a copy of its crate, and the prover
# must refuse it. The gate (.ci/run) tries those of crates/NAME/must-fail, and these are too many for it. Prints a line for each edit,
# and exits non-zero where one is not refused. What checks of this repository have proved on this machine is not proved again.
set -euo pipefail
cd "$(dirname "$0")/../.."
if [ $# -eq 0 ]; then
    for folder in tools/edits/*/; do set -- "$@" "$(basename "$folder")"; done
fi
copy=$(mktemp -d)
trap 'rm -rf "$copy"' EXIT
tar -cf - --exclude=out --exclude=must-fail crates crates.txt | tar -xf - -C "$copy"
for name; do
    if ! ls "tools/edits/$name"/*.edit > /dev/null 2>&1; then
        echo "run.sh: there is no edit in tools/edits/$name" >&2
        exit 2
    fi
    mkdir "$copy/crates/$name/must-fail"
    cp "tools/edits/$name"/*.edit "$copy/crates/$name/must-fail"
done
cd "$copy"
set +e
rt must-fail "$@" | grep --line-buffered -E '^rt: (must-fail|ok|FAILED)|NOT PROVED'
exit "${PIPESTATUS[0]}"
