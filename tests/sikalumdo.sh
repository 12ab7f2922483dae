#!/usr/bin/env bash
# Tries the program `sikalumdo` on whole files, beside bcftools where that can be.
# - `cut` gives what `bcftools view -I` gives, to the last byte, the header included, over cohorts with every kind of field, haploid and
#   missing calls and bare 00; where nobody stays bcftools drops FORMAT lines from the header, so there the records are compared.
# - `tally` gives what the VCF text says (tests/cohorts/say.py), and a record's place, ID and alleles as bcftools prints them.
# - `vcf` gives the lines of `bcftools annotate -x INFO,^FORMAT/GT`, and its header, and those that the VCF text says; bcftools reads it back.
# - `audit` accepts each release, ours and bcftools's own, and finds each of the ways in which tests/sikalumdo/tamper.py damages one.
# - Bad input gets one line and the status 2, and nothing is left behind (tests/sikalumdo/fuzz.py over thousands of damaged files).
set -euo pipefail
cd "$(dirname "$0")/.."
for program in cargo bcftools bgzip python3; do
  command -v $program >/dev/null || { echo "tests/sikalumdo.sh: skipped, $program is not there"; exit 0; }
done
fuzzed=${1:-3000}
tools/sikalumdo --version >/dev/null
program=$PWD/target/cargo/release/sikalumdo
made=$(mktemp -d)
trap 'rm -rf "$made"' EXIT
count=0 wrong=0

# fail WORDS: something is not as it should be
fail() {
  echo "tests/sikalumdo.sh: $1"
  wrong=$((wrong + 1))
}

# expect WHAT FILE: standard input is the same as the file, which is WHAT
expect() {
  count=$((count + 1))
  cmp -s - "$2" || fail "not $1"
}

# ends STATUS PATTERN WORD ..: the program ends with the status, and one of the lines that it says has the pattern
ends() {
  local status=0 wanted=$1 pattern=$2
  shift 2
  count=$((count + 1))
  "$program" "$@" >"$made/said" 2>&1 </dev/null || status=$?
  [ $status -eq "$wanted" ] || fail "status $status and not $wanted for $*: $(head -n 2 "$made/said")"
  grep -q -- "$pattern" "$made/said" || fail "no '$pattern' for $*: $(head -n 2 "$made/said")"
}

# records FILE: the bytes of a plain file's records
records() {
  python3 -c 'import sys; data = open(sys.argv[1], "rb").read(); sys.stdout.buffer.write(data[9 + int.from_bytes(data[5:9], "little"):])' "$1"
}

# release NAME HOW LIST CHOICE ..: the cohort is cut by the program as HOW LIST say, by bcftools as CHOICE says, and both are audited
release() {
  local file=$made/$1 how=$2 list=$made/$3 what="$1 $2 $3"
  "$program" cut "$file.bcf" "$how" "$list" -o "$made/ours" --quiet || fail "no release for $what"
  bcftools view --no-version -I "${@:4}" -Ou "$file.bcf" >"$made/theirs"
  if [ "$4" = -G ]; then
    expect "the records of bcftools for $what" <(records "$made/theirs") < <(records "$made/ours")
  else
    expect "the bytes of bcftools for $what" "$made/theirs" <"$made/ours"
  fi
  "$program" cut "$file.plain" "$how" "$list" -o "$made/packed" -O b --threads 3 --quiet || fail "no packed release for $what"
  expect "the same when packed for $what" "$made/ours" < <(bgzip -dc "$made/packed")
  ends 0 'is what it should be' audit "$file.bcf" "$made/packed" "$how" "$list"
  cp "$made/said" "$made/page"
  ends 0 'is what it should be' audit "$file.bcf" "$made/packed" "$how" "$list" --threads 3
  expect "the same page with threads for $what" "$made/page" <"$made/said"
  ends 0 '"differences":0,' audit "$file.plain" "$made/theirs" "$how" "$list" --json
}

# tallied FILE: place, ID, alleles and counts of each record that has a tally, as tally prints them
tallied() { tail -n +2 "$1" | grep -v 'refused 15 at 0'; }

# said NAME: the same by bcftools and by the VCF text
said() {
  tools/frames out "$made/$1.bcf" >"$made/frames"
  paste <(bcftools query -f '%CHROM\t%POS\t%ID\t%REF\t%ALT\n' "$made/$1.bcf") <(python3 tests/cohorts/say.py answers "$made/$1.vcf" "$made/frames") |
    awk -F'\t' '{ n = split($6, a, " "); if (n < 8) next; calls = a[9]; for (i = 10; i <= n; i++) calls = calls "," a[i]
      print $1 "\t" $2 "\t" $3 "\t" $4 "\t" $5 "\t" a[6] "\t" a[7] "\t" a[8] "\t" calls }'
}

# Of the QUALs of the cohorts 0.001 and -3.5 are refused, and have no line; 1e6 is printed with all its digits, where bcftools has 1e+06.
# texted NAME: the lines with GT alone that the VCF text says; who leaves off GT has a dot, and a record without GT dots for FORMAT and everybody
texted() {
  awk -F'\t' -v OFS='\t' '/^#/ || $6 == "0.001" || $6 == "-3.5" { next }
    { gt = 0; n = split($9, names, ":"); for (i = 1; i <= n; i++) if (names[i] == "GT") gt = i
      for (i = 10; i <= NF; i++) { split($i, values, ":"); $i = gt in values ? values[gt] : "." }
      $8 = "."; if (NF > 8) $9 = gt ? "GT" : "."; if ($6 == "1e6") $6 = "1000000"; print }' "$made/$1.vcf"
}

# peers FILE: the same by bcftools
peers() {
  bcftools annotate --no-version -x INFO,^FORMAT/GT -Ou "$1" | bcftools view --no-version -H - |
    awk -F'\t' -v OFS='\t' '$6 == "0.001" || $6 == "-3.5" { next } { if ($6 == "1e+06") $6 = "1000000"; print }'
}

# printed NAME: the cohort as VCF text, and a word for each record without a line
printed() {
  local file=$made/$1 status=0
  "$program" vcf "$file.bcf" >"$file.text" 2>"$made/said" || status=$?
  grep -v '^#' "$file.text" >"$made/lines"
  expect "the lines that the text of $1 says" <(texted "$1") <"$made/lines"
  # bcftools 1.16 prints the missing mark of a GT that somebody leaves off as a number.
  [ "$1" = left-off ] || expect "the lines of bcftools for $1" <(peers "$file.bcf") <"$made/lines"
  expect "a word for each record of $1 without a line, and status 1" \
    <(awk -F'\t' '/^#/ { next } { n++ } $6 == "0.001" || $6 == "-3.5" { print "record " n " (" $1 ":" $2 ")" } END { print 1 }' "$file.vcf") \
    < <(sed -n 's/ at byte [0-9]*: refusal 17 at byte 0 of the record: .*//p' "$made/said"; echo $status)
  "$program" vcf - -o "$made/again" --threads 3 --quiet <"$file.plain" 2>/dev/null && fail "status 0 for the text of $1"
  expect "the same text of $1 in a file" "$file.text" <"$made/again"
  # bcftools keeps the line of GT where there is nobody.
  expect "the header of bcftools for $1" <(bcftools annotate --no-version -x INFO,^FORMAT/GT "$file.bcf" | grep '^#' | grep -v "${2:-^$}") < <(grep '^#' "$file.text")
  expect "the lines that bcftools reads back of $1" "$made/lines" < <(bcftools view --no-version -H "$file.text" | sed 's/\t1e+06\t/\t1000000\t/')
}

# cohort NAME: a cohort made, checked, tallied, printed and cut
cohort() {
  local file=$made/$1
  python3 tests/cohorts/make.py "$1" >"$file.vcf"
  bcftools view --no-version -Ob -o "$file.bcf" "$file.vcf"
  bcftools view --no-version -Ou "$file.bcf" >"$file.plain"
  ends 0 ' 0 refused$' check "$file.bcf"
  ends 0 ' 0 refused$' check "$file.plain" --threads 3
  "$program" tally "$file.bcf" >"$file.tally" 2>"$made/refused" || [ -s "$made/refused" ] || fail "no tally of $1"
  expect "the tally of $1 that bcftools and the text say" <(said "$1") < <(tallied "$file.tally")
  "$program" tally - --threads 3 <"$file.plain" >"$made/again" 2>/dev/null || true
  expect "the same tally of $1 from standard input" "$file.tally" <"$made/again"
  bcftools query -l "$file.bcf" >"$made/everybody"
  [ -s "$made/everybody" ] || { printed "$1" '^##FORMAT'; return 0; }
  printed "$1"
  awk 'NR % 3 == 1' "$made/everybody" >"$made/third"
  awk 'NR % 5 == 2' "$made/everybody" >"$made/gone"
  tail -n 1 "$made/everybody" >"$made/last"
  for list in everybody third last; do release "$1" --only "$list" -S "$made/$list"; done
  [ ! -s "$made/gone" ] || release "$1" --without gone -S "^$made/gone"
  release "$1" --without everybody -G
}

# finds HOW: the audit finds how the release of a hundred people is damaged, and says so
finds() {
  python3 tests/sikalumdo/tamper.py "$1" "$made/release" "$made/damaged" >"$made/words" || fail "no damage $1"
  while read -r words; do
    ends 1 "$words" audit "$made/hundred.plain" "$made/damaged" --without "$made/gone"
  done <"$made/words"
}

ends 0 'is what it should be' audit samples/cohort.bcf samples/release.bcf --without samples/leavers.txt
ends 0 'caution: INFO AN is in 17 records, and in 16' audit samples/cohort.bcf samples/release.bcf --without samples/leavers.txt
"$program" cut samples/cohort.bcf --without samples/leavers.txt -o - --quiet >"$made/ours"
expect "the release of the samples" samples/release.bcf <"$made/ours"
for name in no-people one three hundred thousand dictionary left-off; do cohort $name; done

awk 'NR % 5 == 2' <(bcftools query -l "$made/hundred.bcf") >"$made/gone"
"$program" cut "$made/hundred.plain" --without "$made/gone" -o "$made/release" --quiet
for how in call padded exchanged dropped doubled moved moved_back width info reordered named; do finds $how; done
tail -n +2 "$made/gone" >"$made/fewer"
"$program" cut "$made/hundred.plain" --without "$made/fewer" -o "$made/kept" --quiet
ends 1 'P1 left and is in the release, as its person 2' audit "$made/hundred.plain" "$made/kept" --without "$made/gone"
grep -A1 '^differences' "$made/said" | grep -q 'P1 left' || fail 'who should have gone does not come first'
ends 1 'names P1, who left' audit "$made/hundred.plain" <(sed 's/a filter, IDX=7/of P1 it, IDX=7/' "$made/release") --without "$made/gone"

# Header lines that name somebody who leaves go, and the rest stay; a line that records need stops it.
{ head -n 1 "$made/hundred.vcf"; printf '##SAMPLE=<ID=P1,Note="x">\n##SAMPLE=<ID=P10,Note="y">\n##PEDIGREE=<Child=P2,Mother=P6>\n##note=P1-b\n'; tail -n +2 "$made/hundred.vcf"; } |
  bcftools view --no-version -Ou - >"$made/named"
ends 0 'a line of the header goes, since it names P6: ##PEDIGREE' cut "$made/named" --without "$made/gone" -o "$made/lines"
[ "$(grep -c 'a line of the header goes' "$made/said")" -eq 3 ] || fail 'not three lines went'
bcftools view -h "$made/lines" | grep -q '##SAMPLE=<ID=P10,' || fail 'a line went that names nobody who left'
ends 0 'is what it should be' audit "$made/named" "$made/lines" --without "$made/gone"
sed 's/a filter, IDX=7/of P1 it, IDX=7/' "$made/hundred.plain" >"$made/needed"
ends 1 'names P1, who leaves, and records need it' cut "$made/needed" --without "$made/gone" -o "$made/none"

# A record that is refused: listed by check, a stop for cut, and left out only where that is asked for.
python3 - "$made/three.plain" "$made/refused.bcf" <<'PY'
import struct, sys
data = bytearray(open(sys.argv[1], "rb").read())
start = 9 + struct.unpack_from("<I", data, 5)[0]
start += 8 + sum(struct.unpack_from("<II", data, start))
struct.pack_into("<i", data, start + 16, -1)
open(sys.argv[2], "wb").write(data)
PY
echo P1 >"$made/names"
ends 1 '^record 2 (20:997) at byte .*: refusal 5 at byte 16 of the record: ' check "$made/refused.bcf"
ends 1 '^700 records, 699 accepted, 1 refused: 1 by refusal 5$' check "$made/refused.bcf"
ends 1 'refused 5 at 16' tally "$made/refused.bcf"
ends 1 'refusal 5 at byte 16' cut "$made/refused.bcf" --without "$made/names" -o "$made/none"
ends 0 'left out: record 2 (20:997)' cut "$made/refused.bcf" --without "$made/names" -o "$made/lacking" --leave-out-refused --quiet
ends 1 'not in the release: the source.s record 2 (20:997)' audit "$made/refused.bcf" "$made/lacking" --without "$made/names"

# A record that is longer than any may be is refused by its lengths and passed over; long ones that may be go through.
python3 - "$made/three.plain" "$made/long.bcf" <<'PY'
import struct, sys
data = open(sys.argv[1], "rb").read()
start = 9 + struct.unpack_from("<I", data, 5)[0]
first = data[start:start + 8 + sum(struct.unpack_from("<II", data, start))]
tall = struct.pack("<II", len(first), 40_000_000) + bytes(len(first) + 40_000_000)
wide = struct.pack("<II", 5_000_000, 0) + bytes(5_000_000)
open(sys.argv[2], "wb").write(data + tall + first + wide + tall + first)
PY
ends 1 '^705 records, 702 accepted, 3 refused: 2 by refusal 2, 1 by refusal [0-9]*$' check "$made/long.bcf"
ends 1 '^705 records, 702 accepted' check "$made/long.bcf" --threads 20
ends 0 '702 records, 3 left out' cut "$made/long.bcf" --without "$made/names" -o "$made/lacking" --leave-out-refused
ends 1 '^records: 705 in the source, 702 in the release, 702 the same$' audit "$made/long.bcf" "$made/lacking" --without "$made/names"

# A dictionary with gaps, as bcftools leaves them.
bcftools annotate --no-version -x INFO/DP,FORMAT/AD -Ou "$made/three.bcf" >"$made/gaps.bcf"
"$program" cut "$made/gaps.bcf" --without "$made/names" -o "$made/ours" --quiet
expect "the bytes of bcftools with gaps" <(bcftools view --no-version -I -S "^$made/names" -Ou "$made/gaps.bcf") <"$made/ours"
ends 0 'is what it should be' audit "$made/gaps.bcf" "$made/ours" --without "$made/names"

# Files that are kept: the lines of bcftools where QUAL is whole or missing, and no others. (Its 1e+06 is here 1000000.5, which is refused.)
for kept in tests/real/cohort.bcf samples/cohort.bcf; do
  "$program" vcf "$kept" >"$made/text" 2>/dev/null || true
  expect "the lines of bcftools for $kept" < <(grep -v '^#' "$made/text") \
    <(bcftools annotate --no-version -x INFO,^FORMAT/GT -Ou "$kept" | bcftools view --no-version -H - | awk -F'\t' '$6 ~ /^([.]|[0-9]+)$/')
done

# Names by IDX, with gaps; a header without GT, which leaves no columns for people; QUALs at the ends of what is printed.
"$program" vcf "$made/gaps.bcf" >"$made/text" 2>/dev/null || true
expect "the lines of bcftools with gaps" <(peers "$made/gaps.bcf") < <(grep -v '^#' "$made/text")
bcftools annotate --no-version -x FORMAT/GT -Ou "$made/three.bcf" >"$made/no-gt.bcf"
"$program" vcf "$made/no-gt.bcf" >"$made/text" 2>/dev/null || true
expect "eight columns without GT" <(bcftools view --no-version -G -H "$made/text" | sed 's/\t1e+06\t/\t1000000\t/') < <(grep -v '^#' "$made/text")
[ "$(grep -v '^##' "$made/text" | awk -F'\t' '{ print NF }' | sort -u)" = 8 ] || fail 'not eight columns throughout'
{ printf '##fileformat=VCFv4.2\n##contig=<ID=1>\n#CHROM\tPOS\tID\tREF\tALT\tQUAL\tFILTER\tINFO\n'
  for qual in 16777215 123456789 -0 . 1e-40 inf; do printf '1\t7\t.\tA\tC\t%s\t.\t.\n' $qual; done; } | bcftools view --no-version -Ou - >"$made/quals.bcf"
ends 1 '^record 2 (1:7) at byte .*: refusal 17 at byte 0 of the record: QUAL is not printable' vcf "$made/quals.bcf"
ends 1 '3 of 6 records were refused and have no line$' vcf "$made/quals.bcf"
expect 'the QUALs that are printed' <(printf '16777215\n0\n.\n') < <("$program" vcf "$made/quals.bcf" 2>/dev/null | grep -v '^#' | cut -f6)
ends 1 '^record 2 (20:997) at byte .*: refusal 5 at byte 16 of the record: ' vcf "$made/refused.bcf" -o "$made/text"
ends 1 '^record 701 (20:1) at byte .*: refusal 2 at byte 0 of the record: ' vcf "$made/long.bcf" --threads 2 -o "$made/text"
python3 - "$made/quals.bcf" "$made/far.bcf" <<'PY'
import struct, sys
data = open(sys.argv[1], "rb").read()
start = 9 + struct.unpack_from("<I", data, 5)[0]
text = data[9:start].replace(b"##contig=<ID=1,IDX=0>", b"##contig=<ID=1,IDX=4294967294>")
open(sys.argv[2], "wb").write(data[:5] + struct.pack("<I", len(text)) + text + data[start:])
PY
ends 2 'the largest offset of the contigs is 4294967294; expected one below' vcf "$made/far.bcf" -o "$made/none"

# Names
: >"$made/empty"
printf 'P1\nP1\n' >"$made/twice"
echo P3 >"$made/stranger"
three=$made/three.plain
ends 2 'the list of names is empty' cut "$three" --without "$made/empty" -o "$made/none"
ends 2 "the name 'P1' stands twice" cut "$three" --without "$made/twice" -o "$made/none"
ends 2 "nobody has the name 'P3'" cut "$three" --only "$made/stranger" -o "$made/none"
ends 0 '3 people stay, 0 left' cut "$three" --without "$made/empty" --nobody -o "$made/all"
expect "the file itself where nobody leaves" "$three" <"$made/all"
ends 0 '0 people stay, 3 left' cut "$three" --only "$made/empty" --nobody -o "$made/all"
ends 2 'it would replace its source' cut "$three" --without "$made/names" -o "$three"

# Usage and files
ends 2 'no command' ''
ends 2 'has no option --json' check --json "$three"
ends 2 'expected 1' check
ends 2 'expected a number from 1' check --threads 0 "$three"
ends 2 'no release is named' cut "$three" --without "$made/names"
ends 2 'no list of names' audit "$three" "$three"
ends 2 'it would replace its source' vcf "$three" -o "$three"
ends 2 'has no option -O' vcf "$three" -O b
for command in check tally cut audit vcf; do ends 0 '^Example: ' $command -h; done
ends 2 'cannot be opened: No such file' check "$made/nothing"
ends 2 'it is a folder' check "$made"
ends 2 'the file is empty; expected BCF' check "$made/empty"
ends 2 'byte 0: VCF text; expected BCF' check "$made/three.vcf"
ends 2 'byte 0: not a BCF file' check "$made/names"
bad() { cat >"$made/bad"; ends 2 "$1" check "$made/bad"; }
bad 'byte 3: BCF version 2.1; expected 2.2' < <(printf 'BCF\002\001'; tail -c +6 "$three")
bad 'byte 3: BCF version 1; expected 2.2' < <(printf 'BCF\004'; tail -c +6 "$three")
bad 'byte 7: cut short; expected the length of the header' < <(head -c 7 "$three")
bad 'byte 500: the header is cut short; expected [0-9]* bytes more' < <(head -c 500 "$three")
size=$(stat -c %s "$three")
bad "byte $((size - 1)): record 700 is cut short; expected 1 bytes more" < <(head -c -1 "$three")
bad "byte $((size + 5)): record 701 is cut short; expected 3 bytes more" < <(cat "$three"; printf '12345')
bad "record 701 is cut short; expected 8589934589 bytes more" < <(cat "$three"; printf '\377\377\377\377\377\377\377\377x')
bad 'the dictionary leaves out the offset of s50' < <(sed 's/,IDX=2>/,IDY=2>/' "$three")
bad 's50 and q10\|q10 and s50' < <(sed 's/,IDX=2>/,IDX=1>/' "$three")
bad "the sample name 'P1' is empty or stands twice" < <(sed 's/\tP0\t/\tP1\t/' "$three")
bad 'expected the empty block that ends a BGZF file' < <(head -c -28 "$made/three.bcf")
bad 'expected a whole BGZF file' < <(head -c -100 "$made/three.bcf")
# Packed files without bgzip, and without any tool; a release behind a link replaces the file and not the link.
mkdir "$made/tools"
ln -s "$(command -v bcftools)" "$made/tools/bcftools"
count=$((count + 2))
(PATH=$made/tools; "$program" check "$made/three.bcf") >"$made/said" 2>&1 || fail 'bcftools does not unpack where bgzip is not there'
rm "$made/tools/bcftools"
status=0; (PATH=$made/tools; "$program" check "$made/three.bcf") >"$made/said" 2>&1 || status=$?
{ [ $status -eq 2 ] && grep -q 'neither bgzip nor bcftools is here' "$made/said"; } || fail 'no word where nothing unpacks'
touch "$made/behind"
ln -s behind "$made/link"
ends 0 '2 people stay, 1 left' cut "$three" --without "$made/names" -o "$made/link"
{ [ -L "$made/link" ] && [ -s "$made/behind" ]; } || fail 'a link is replaced'

count=$((count + 4))
status=0; "$program" vcf "$three" >/dev/full 2>"$made/said" || status=$?
{ [ $status -eq 2 ] && grep -q 'No space left' "$made/said"; } || fail 'a full disk is not heard of in vcf'
status=0; "$program" tally "$three" >/dev/full 2>"$made/said" || status=$?
{ [ $status -eq 2 ] && grep -q 'No space left' "$made/said"; } || fail 'a full disk is not heard of'
status=0; "$program" cut "$three" --without "$made/names" -o /dev/full 2>"$made/said" || status=$?
{ [ $status -eq 2 ] && grep -q 'No space left' "$made/said"; } || fail 'a full disk is not heard of in cut'
status=0; { "$program" tally "$made/thousand.plain" 2>"$made/said" || status=$?; echo $status >"$made/status"; } | true
{ [ "$(cat "$made/status")" -eq 2 ] && grep -q 'closed early' "$made/said"; } || fail 'a pipe closed early is not told'
[ -z "$(find "$made" -name 'none*' -o -name '*.part-*')" ] || fail 'something is left behind'

python3 -B tests/sikalumdo/fuzz.py "$program" "$fuzzed" "$three" "$made/three.bcf" "$made/dictionary.plain" "$made/left-off.plain" || wrong=$((wrong + 1))
echo "tests/sikalumdo.sh: $count comparisons, $wrong wrong"
[ "$wrong" -eq 0 ]
