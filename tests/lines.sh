#!/usr/bin/env bash
# Runs bcflines over every case of tests/lines, records with the answers that they must get, and compares whole outputs; then over inputs that the
# world outside breaks, where standard error and the status of tools/run have to say so. The cases come from an implementation that was written from the
# rules alone. Prints what differs and exits 1 if anything does.
set -uo pipefail
cd "$(dirname "$0")/.."
count=0 wrong=0
said=$(mktemp)
trap 'rm -f "$said"' EXIT

for case in tests/lines/*.in; do
  count=$((count + 1))
  if ! cmp -s <(tools/run bcflines <"$case" 2>/dev/null) "${case%.in}.out"; then
    echo "tests/lines.sh: another answer than ${case%.in}.out"
    wrong=$((wrong + 1))
  fi
done

# told CAME NAME STATUS WORDS: the status that came is the one given, and standard error, kept in $said, is these words, or nothing
told() {
  local came=$1
  shift
  count=$((count + 1))
  if [ "$came" -ne "$2" ] || [ "$(cat "$said")" != "$3" ]; then
    echo "tests/lines.sh: $1: status $came, and on standard error: $(cat "$said")"
    wrong=$((wrong + 1))
  fi
}

sample=samples/two-people.hex
first='bcflines: the first line has to be 32 hexadecimal digits: strings, contigs, people and GT offset, eight each'
tools/run bcflines <"$sample" >/dev/null 2>"$said"
told $? 'an input that is well' 0 ''
tools/run bcflines <"$sample" >/dev/full 2>"$said"
told $? 'a full device' 1 'standard output: No space left on device'
tools/run bcflines <"$sample" >&- 2>"$said"
told $? 'a closed standard output' 1 'standard output: Bad file descriptor'
tools/run bcflines <samples >/dev/null 2>"$said"
told $? 'a directory for the input' 1 'standard input: Is a directory'
tools/run bcflines <&- >/dev/null 2>"$said"
told $? 'a closed standard input' 1 'standard input: Bad file descriptor'
tools/run bcflines </dev/null >/dev/null 2>"$said"
told $? 'no input' 1 "$first"
echo 123 | tools/run bcflines >/dev/null 2>"$said"
told $? 'a first line that is no frame' 1 "$first"
# more than a buffer of answers: the first write that fails ends it, and is told once
(head -n 1 "$sample" && yes "$(sed -n 2p "$sample")" | head -n 20000) | tools/run bcflines >/dev/full 2>"$said"
told $? 'a full device, and much to write' 1 'standard output: No space left on device'

echo "tests/lines.sh: $count cases, $wrong wrong"
[ "$wrong" -eq 0 ]
