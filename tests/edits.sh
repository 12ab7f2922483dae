#!/usr/bin/env bash
# Tries the edits of tests/edits, wrong versions beside those that the gate tries: each is made in a copy of the project and must be refused.
# tests/edits.sh CRATE .. tries those of the crates named; alone it tries all, which takes most of an hour on two cores.
set -euo pipefail
cd "$(dirname "$0")/.."
copy=$(mktemp -d)
trap 'rm -rf "$copy"' EXIT
git ls-files -z | grep -zv '^crates/[^/]*/must-fail/' | xargs -0 cp --parents -t "$copy"
if [ $# -eq 0 ]; then
  set -- $(ls tests/edits)
fi
for crate in "$@"; do
  mkdir -p "$copy/crates/$crate/must-fail"
  cp "tests/edits/$crate"/*.edit "$copy/crates/$crate/must-fail/"
done
cd "$copy"
rt must-fail "$@"
