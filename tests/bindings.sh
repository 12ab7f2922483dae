#!/usr/bin/env bash
# Runs the tests of the bindings against the library that tools/host compiles for this machine: C and C++ (tests/bindings/call.c, under
# valgrind, too), Python (bindings/python) and Rust (bindings/rust). Prints what fails. The last line says how many tests of each ran;
# the exit status says whether all passed. It uses no network; what needs a program that is missing here is skipped with a word.
set -euo pipefail
cd "$(dirname "$0")/.."
failed=0 ran=''
log=$(mktemp)
trap 'rm -f "$log"' EXIT

# has PROGRAM WHAT: whether a program is here; else says that what needs it is skipped
has() {
  command -v "$1" >/dev/null || { echo "tests/bindings.sh: no $1 here, so $2 skipped"; return 1; }
}

# run LANGUAGE COUNT COMMAND ..: runs a command, and counts its tests by the awk program COUNT over what it says
run() {
  local language=$1 count=$2 status=0 tests
  shift 2
  "$@" </dev/null >"$log" 2>&1 || status=$?
  tests=$(awk "$count" "$log")
  if [ $status -ne 0 ] || [ "$tests" -eq 0 ]; then
    failed=1
    echo "tests/bindings.sh: $language failed"
    cat "$log"
  fi
  ran="$ran, $tests of $language"
}

# call LANGUAGE COMMAND ..: compiles call.c, and runs it where that went well
call() {
  local language=$1 program=target/host/call count='/tests,/ { n = $1 } END { print n + 0 }'
  shift
  if ! "$@" -pedantic -Wall -Wextra -Werror -Iinclude tests/bindings/call.c -x none target/host/libc_api.a -o $program; then
    failed=1
    return 0
  fi
  run "$language" "$count" $program samples/two-people.hex
  if [ "$language" = C ] && has valgrind 'C under valgrind is'; then
    run 'C under valgrind' "$count" valgrind -q --leak-check=full --error-exitcode=3 $program samples/two-people.hex
  fi
}

has cc 'all that is linked, C, Python and Rust, is' || exit 0
tools/host c_api >/dev/null
call C cc -std=c99
if has c++ 'C++ is'; then
  call C++ c++ -x c++ -std=c++11
fi
if has python3 'Python is'; then
  run Python '/^Ran / { n = $2 } END { print n + 0 }' python3 -B -m unittest discover -s bindings/python
fi
if has cargo 'Rust is'; then
  CARGO_TARGET_DIR=$PWD/target/cargo run Rust '/^test result:/ { n += $4 + $6 } END { print n + 0 }' \
    cargo test --offline --manifest-path bindings/rust/Cargo.toml
fi
echo "tests/bindings.sh: ${ran#, } ran, $([ $failed -eq 0 ] && echo all passed || echo not all passed)"
exit $failed
