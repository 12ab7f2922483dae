"""Spoils the file of tests/real in one way after another and sees that tools/frames stops with a word; and that it reads a header that is
numbered in the other ways that the format has. Prints what went otherwise and says so with the exit status.

    python3 -B tests/real/damaged.py
"""
import gzip
import pathlib
import re
import struct
import subprocess
import sys
import tempfile

ROOT = pathlib.Path(__file__).resolve().parents[2]
PACKED = (ROOT / "tests/real/cohort.bcf").read_bytes()
PLAIN = gzip.decompress(PACKED)
BORDER = 9 + struct.unpack_from("<I", PLAIN, 5)[0]  # where the records begin
TEXT = PLAIN[9:BORDER]


def with_header(text):
    """The file with another header text."""
    return PLAIN[:5] + struct.pack("<I", len(text)) + text + PLAIN[BORDER:]


def frames(way, data, lines=b"", *people):
    """What tools/frames does with a file of these bytes."""
    with tempfile.NamedTemporaryFile() as file:
        file.write(data)
        file.flush()
        return subprocess.run([ROOT / "tools/frames", way, file.name, *people], input=lines, capture_output=True)


LINES = frames("out", PACKED).stdout
FIRST, SECOND, *REST = LINES.splitlines(keepends=True)
UNNUMBERED = re.sub(rb",IDX=\d+>", b">", TEXT)

SOUND = {  # the frame lines are the same
    "plain": PLAIN,
    "compressed by gzip": gzip.compress(PLAIN),
    "without any IDX": with_header(UNNUMBERED),
    "without any IDX and PASS": with_header(re.sub(rb"##FILTER=<ID=PASS.*\n", b"", UNNUMBERED)),
    "without the line of PASS": with_header(re.sub(rb"##FILTER=<ID=PASS.*\n", b"", TEXT)),
    "without the IDX of PASS": with_header(TEXT.replace(b",IDX=0>", b">", 1)),
    "with IDX before the description": with_header(re.sub(rb",(Desc.*),(IDX=\d+)>", rb",\2,\1>", TEXT)),
    "with an IDX in a description": with_header(TEXT.replace(b"Quality below 10", b"a, IDX=99,IDX=98>")),
}
DAMAGED = {  # what is read, and what tools/frames says
    "cut off in a record": (PLAIN[:-3], "cut off in record 18"),
    "cut off in the lengths": (PLAIN + b"\1\0\0", "cut off in record 19"),
    "with lengths past everything": (PLAIN + b"\xFF" * 8, "cut off in record 19"),
    "cut off in the header": (PLAIN[:100], "cut off in the header"),
    "empty": (b"", "cut off in the header"),
    "cut off in a block": (PACKED[:-40], "cut off: its last block is not the empty one"),
    "cut off between blocks": (PACKED[:-28], "cut off: its last block is not the empty one"),
    "gzip cut off": (gzip.compress(PLAIN)[:-40], "ended before the end-of-stream marker"),
    "with another byte in a block": (PACKED[:200] + bytes([PACKED[200] ^ 1]) + PACKED[201:], ""),
    "of version 2.1": (PLAIN.replace(b"BCF\2\2", b"BCF\2\1", 1), "not a BCF file of version 2.2"),
    "a VCF file": ((ROOT / "tests/real/cohort.vcf").read_bytes(), "not a BCF file of version 2.2"),
    "without an IDX among others": (with_header(TEXT.replace(b",IDX=2>", b">", 1)), "the header has IDX, but not for s50"),
    "with two IDX for a name": (with_header(TEXT.replace(b",IDX=3>", b",IDX=30>", 1)), "the header has two IDX for DP"),
    "with one IDX for two names": (with_header(TEXT.replace(b",IDX=2>", b",IDX=1>", 1)), "the header has one IDX for two names"),
    "without the line of the columns": (with_header(TEXT[: TEXT.index(b"#CHROM")]), "does not end with the line of the columns"),
}
NOT_BACK = {  # the lines, and what tools/frames says
    "nothing": (b"", "the first line is ''"),
    "bad": (b"bad\n", "the first line is 'bad'"),
    "other facts": (FIRST.replace(b"0C", b"0B") + SECOND + b"".join(REST), "the first line is '"),
    "a refusal": (FIRST + b"no 6 37\n" + b"".join(REST), "the line of record 1 is 'no 6 37'"),
    "a bad line": (FIRST + SECOND + b"bad\n" + b"".join(REST[1:]), "the line of record 2 is 'bad'"),
    "an odd line": (FIRST + SECOND[:-2] + b"\n" + b"".join(REST), "the line of record 1 is '"),
    "a record cut off": (FIRST + SECOND[:-3] + b"\n" + b"".join(REST), "the line of record 1 is not one whole record"),
    "two records on a line": (FIRST + SECOND[:-1] + b"".join(REST), "the line of record 1 is not one whole record"),
    "an empty line": (FIRST + b"\n" + b"".join(REST), "the line of record 1 is not one whole record"),
    "a line too few": (FIRST + b"".join(REST), "there is no line of number 18"),
    "a line too many": (LINES + SECOND, "there is no record of number 19"),
}


def stops(done, word):
    """It stopped with that word."""
    said = done.stderr.decode()
    return done.returncode == 1 and said.startswith("tools/frames: ") and word in said and said.count("\n") == 1


def judged():
    """Each case with whether it went as it has to."""
    yield "the frame lines out and back", frames("back", PACKED, LINES).stdout == PLAIN
    for what, data in SOUND.items():
        yield f"a file {what}", frames("out", data).stdout == LINES
    for what, (data, word) in DAMAGED.items():
        yield f"a file {what}", stops(frames("out", data), word)
    for what, (lines, word) in NOT_BACK.items():
        done = frames("back", PACKED, lines)
        yield f"back with {what}", done.stdout == b"" and stops(done, f"nothing is written: {word}")
    with tempfile.NamedTemporaryFile() as names:
        names.write(b"P03\nP13\n")
        names.flush()
        for way in "out", "back":
            done = frames(way, PACKED, LINES, "--without", names.name)
            yield f"{way} with a name that nobody has", done.stdout == b"" and stops(done, "nobody in the header has the name 'P13' of ")


def main():
    cases = list(judged())
    wrong = [what for what, right in cases if not right]
    for what in wrong:
        print(f"tests/real/damaged.py: {what} went otherwise")
    print(f"tests/real/damaged.py: {len(cases)} cases, {len(wrong)} wrong")
    return 1 if wrong else 0


sys.exit(main())
