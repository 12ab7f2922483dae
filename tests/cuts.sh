#!/usr/bin/env bash
# Runs bcfcut over every case of tests/cuts, lines with the answers that they must get, and over lines of the greatest length, which are
# made here; and bcflines over the releases whose tallies are there. Compares whole outputs, prints what differs and exits 1 if
# anything does. The answers come from an implementation that was written from the rules alone; those of bare-00 were worked out by hand.
set -euo pipefail
cd "$(dirname "$0")/.."
count=0 wrong=0

# expect NAME FILE: standard input is the same as the file
expect() {
  count=$((count + 1))
  if ! cmp -s - "$2"; then
    echo "tests/cuts.sh: another answer than $1"
    wrong=$((wrong + 1))
  fi
}

for case in tests/cuts/*.in; do
  expect "${case%.in}.out" "${case%.in}.out" < <(tools/run bcfcut <"$case" 2>/dev/null)
done
for tally in tests/cuts/*.tally; do
  expect "$tally" "$tally" < <(tools/run bcfcut <"${tally%.tally}.in" | tools/run bcflines)
done

facts=00000004000000010000200000000003 # 8192 people, so that a choice is not out of range
record=$(sed -n 2p samples/two-people.hex)
# people N: a choice of the first so many people
people() { printf '%08X' $(seq 0 $(($1 - 1))); }
long=$(printf '%060002d' 0)
expect 'a choice of 7,500 people' <(printf '%s\n' 000000040000000100001D4C00000003 'no 5 28') \
  < <(printf '%s\n' "$facts" "$(people 7500)" "$record" | tools/run bcfcut)
expect 'a choice of 7,501 people' <(printf '%s\n' 000000040000000100001D4D00000003 'no 5 28') \
  < <(printf '%s\n' "$facts" "$(people 7501)" "$record" | tools/run bcfcut)
expect 'a choice of 30,000 people' <(printf '%s\n' 00000004000000010000753000000003 'no 5 28') \
  < <(printf '%s\n' "$facts" "$(people 30000)" "$record" | tools/run bcfcut)
expect 'a choice of 30,001 people' <(echo bad) < <(printf '%s\n' "$facts" "$(people 30001)" "$record" | tools/run bcfcut 2>/dev/null)
expect 'a choice that does not end' <(echo bad) < <(printf '%s\n' "$facts" "$(people 60000)" "$record" | tools/run bcfcut 2>/dev/null)

# many SIZE COUNT PEOPLE: the sample's record with so many people, one genotype each; its block's size and the people's count, low byte first
many() {
  printf '23000000%s0000%s%s%s%s110311%s\n' "$1" 0000000021380000010000000000E84101000200 "$2" 0001 071747174111001102110E \
    "$(printf '02%.0s' $(seq 1 "$3"))"
}
expect '7,501 of 8,000 people' <(echo 000000040000000100001D4D00000003 && many 501D 4D1D 7501) \
  < <((echo 000000040000000100001F4000000003 && people 7501 && echo && many 431F 401F 8000) | tools/run bcfcut)
expect 'the last of 8,000 people, without a line feed' <(echo 00000004000000010000000100000003 && many 0400 0100 1) \
  < <((echo 000000040000000100001F4000000003 && echo 00001F3F && many 431F 401F 8000 | tr -d '\n') | tools/run bcfcut)
expect 'a record of over 60,000 digits' <(printf '%s\n' "$facts" bad 'no 1 0' | sed 1s/00002000/00000000/) \
  < <(printf '%s\n' "$facts" '' "$long" "${record:0:98}" | tools/run bcfcut)
expect 'a hundred thousand records' <(sed -n 1p tests/cuts/sample.out && yes "$(sed -n 2p tests/cuts/sample.out)" | head -n 100000) \
  < <((head -n 2 tests/cuts/sample.in && yes "$record" | head -n 100000) | tools/run bcfcut)

# told CAME NAME WORDS: the status that came is 1, and standard error, kept in $said, is these words
told() {
  count=$((count + 1))
  if [ "$1" -ne 1 ] || [ "$(cat "$said")" != "$3" ]; then
    echo "tests/cuts.sh: $2: status $1, and on standard error: $(cat "$said")"
    wrong=$((wrong + 1))
  fi
}
said=$(mktemp)
trap 'rm -f "$said"' EXIT
set +e
tools/run bcfcut <tests/cuts/sample.in >/dev/full 2>"$said"
told $? 'a full device' 'standard output: No space left on device'
tools/run bcfcut <tests/cuts/sample.in >&- 2>"$said"
told $? 'a closed standard output' 'standard output: Bad file descriptor'
tools/run bcfcut </dev/null >/dev/null 2>"$said"
told $? 'no input' 'bcfcut: the first line has to be 32 hexadecimal digits: strings, contigs, people and GT offset, eight each'
echo "$facts" | tools/run bcfcut >/dev/null 2>"$said"
told $? 'no choice' 'bcfcut: the second line has to be the people chosen, eight hexadecimal digits each, at most 30,000 of them'

echo "tests/cuts.sh: $count cases, $wrong wrong"
[ "$wrong" -eq 0 ]
