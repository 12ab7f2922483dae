#!/usr/bin/env bash
# Sends records that bcftools wrote through bcflines and compares the whole output with what the VCF text that they were made from says.
# The file was made by bcftools 1.16, with
#   bcftools view --no-version -Ob -o tests/real/cohort.bcf tests/real/cohort.vcf
# and where bcftools is installed it is made once more and gets the same answers. In the last three records a bare 00 stands for no filter
# and for a flag. tools/frames, which takes the records out of the file, is then tried on what is damaged (tests/real/damaged.py).
set -euo pipefail
cd "$(dirname "$0")/.."
if ! command -v python3 >/dev/null; then
  echo "tests/real.sh: skipped, python3 is not there"
  exit 0
fi
count=0 wrong=0

# answers NAME FILE: the file's records get the answers that are kept
answers() {
  count=$((count + 1))
  if ! tools/frames out "$2" | tools/run bcflines | cmp -s - tests/real/cohort.out; then
    echo "tests/real.sh: another answer than tests/real/cohort.out for $1"
    wrong=$((wrong + 1))
  fi
}

answers "the file that is kept" tests/real/cohort.bcf
if command -v bcftools >/dev/null; then
  made=$(mktemp)
  trap 'rm -f "$made"' EXIT
  bcftools view --no-version -Ou -o "$made" tests/real/cohort.vcf
  answers "a file made now" "$made"
else
  echo "tests/real.sh: bcftools is not there, so no file is made now"
fi
python3 -B tests/real/damaged.py || wrong=$((wrong + 1))
echo "tests/real.sh: $count files, $wrong wrong"
[ "$wrong" -eq 0 ]
