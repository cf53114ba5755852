#!/usr/bin/env bash
# The wrong programs of tests/mutants, each of which the prover must refuse: tried as the gate tries those of crates/*/must-fail, in a copy of the
# repository, which begins with what checks on this machine kept. Words name crates; with none all are tried.
set -euo pipefail
cd "$(dirname "$0")/.."

copy=$(mktemp -d)
trap 'rm -rf "$copy"' EXIT
git ls-files -z | xargs -0 cp --parents --target-directory "$copy"
cd "$copy"
rm -rf crates/*/must-fail
for mutants in tests/mutants/*/; do
    crate=$(basename "$mutants")
    if [ $# -eq 0 ] || [[ " $* " == *" $crate "* ]]; then cp -r "$mutants" "crates/$crate/must-fail"; fi
done
rt must-fail "$@"
