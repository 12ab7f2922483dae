#!/usr/bin/env bash
# Checks that docs/PROMISES.md is what tools/promises writes of the code as it stands. Its last line says how many functions it has;
# without Python it is skipped with a word.
set -euo pipefail
cd "$(dirname "$0")/.."
command -v python3 >/dev/null || { echo "tests/promises.sh: no python3 here, so the check of the page of promises is skipped"; exit 0; }
said=$(tools/promises --check) || { echo "$said"; echo "tests/promises.sh: failed"; exit 1; }
echo "tests/promises.sh: $said"
