#!/usr/bin/env bash
# Compares the proved library with the plain one over a million made inputs, or as the arguments say, and prints any difference.
#
#   tests/differential.sh                            # about 80 seconds on one core
#   tests/differential.sh --seconds 600 --seed 7
#
# Its exit status is 1 if there is any difference. Without cargo or a C compiler it is skipped with a word.
set -euo pipefail
cd "$(dirname "$0")/.."
for program in cargo cc; do
  command -v $program >/dev/null || { echo "tests/differential.sh: no $program here, so the comparison is skipped"; exit 0; }
done
tools/host c_api >/dev/null
export CARGO_TARGET_DIR=$PWD/target/cargo
cargo build --quiet --release --offline --manifest-path tests/differential/Cargo.toml
if [ $# -eq 0 ]; then set -- --inputs 1000000; fi
exec "$CARGO_TARGET_DIR/release/differential" "$@"
