#!/usr/bin/env bash
# Runs the vectors of tests/vectors through the library as tools/host compiles it. Its last line says how many ran and how many
# were wrong. Without Python or a C compiler they are skipped with a word.
set -euo pipefail
cd "$(dirname "$0")/.."
for program in python3 cc; do
  command -v $program >/dev/null || { echo "tests/vectors.sh: no $program here, so the vectors are skipped"; exit 0; }
done
tools/host c_api >/dev/null
exec python3 -B tests/vectors.py
