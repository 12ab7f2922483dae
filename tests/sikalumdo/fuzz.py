"""Runs `sikalumdo` over damaged files: thousands of inputs, the same ones each time.

    fuzz.py PROGRAM COUNT FILE ..

An input is one of the files with some bytes changed, cut off, doubled or taken out, most of them near the start, where the header is. The
program has to end with the status 0, 1 or 2, to say one line where it is 2, and to leave no file but a whole release behind.
"""
import os
import random
import subprocess
import sys
import tempfile

SECONDS = 20
TEXT = [b"IDX=", b"\t", b"\n", b"#CHROM", b"##FORMAT=<ID=GT", b"\0", b"\xff", b'"', b"##contig=<ID=", b"=<", b"4294967295", b"BCF\2\2"]


def damaged(rng, data):
    """The bytes with some damage."""
    data = bytearray(data)
    for _ in range(rng.choice([1, 1, 1, 2, 5])):
        at = rng.randrange(rng.choice([12, 2000, max(len(data), 1)])) % max(len(data), 1)
        size = rng.choice([1, 1, 2, 4, 8, 100])
        way = rng.randrange(7)
        if way == 0:
            data[at:at + 1] = bytes([rng.randrange(256)])
        elif way == 1:
            del data[at:]
        elif way == 2:
            del data[at:at + size]
        elif way == 3:
            data[at:at] = data[at:at + size]
        elif way == 4:
            data[at:at + 4] = rng.choice([0, 1, 23, 0x7FFFFFFF, 0xFFFFFFFF, rng.randrange(1 << 25)]).to_bytes(4, "little")
        elif way == 5:
            data[at:at + 1] = bytes([data[at] ^ 1 << rng.randrange(8) if at < len(data) else 0])
        else:
            data[at:at + rng.choice([0, size])] = rng.choice(TEXT)
    return bytes(data)


def run(program, words, folder, given=None):
    return subprocess.run([program, *words], input=given, capture_output=True, cwd=folder, timeout=SECONDS, check=False)


def judged(result, what):
    """What is wrong with how the program ended, or nothing."""
    said = result.stderr.decode("utf-8", "replace")
    if result.returncode not in (0, 1, 2) or "panicked" in said:
        return f"{what}: status {result.returncode}: {said[:300]}"
    if result.returncode == 2 and said.count("sikalumdo: ") != 1:
        return f"{what}: not one line: {said[:300]}"
    return None


def commands(rng, folder):
    """One of the ways to run the program on the file `damaged`; the other files are whole."""
    people = ["--without", "names"]
    return rng.choice([
        ["check", "damaged"], ["check", "-"], ["tally", "damaged"], ["tally", "--summary", "-", "--threads", "2"],
        ["cut", "damaged", *people, "-o", "made"], ["cut", "damaged", *people, "-o", "made", "--leave-out-refused"],
        ["cut", "whole", "--without", "damaged", "-o", "made"],
        ["vcf", "-", "--threads", "2"], ["vcf", "damaged", "-o", "made"],
        ["audit", "whole", "damaged", *people], ["audit", "damaged", "release", *people], ["audit", "damaged", "damaged", *people, "--json"],
    ])


def main(program, count, *files):
    rng, wrong = random.Random("damaged"), 0
    seeds = [open(path, "rb").read() for path in files]
    with tempfile.TemporaryDirectory() as folder:
        with open(f"{folder}/names", "w", encoding="utf-8") as names:
            names.write("P1\n")
        with open(f"{folder}/whole", "wb") as whole:
            whole.write(seeds[0])
        assert run(program, ["cut", "whole", "--without", "names", "-o", "release"], folder).returncode == 0
        for number in range(int(count)):
            data = damaged(rng, rng.choice(seeds))
            words = commands(rng, folder)
            with open(f"{folder}/damaged", "wb") as file:
                file.write(data)
            result = run(program, words, folder, data)
            left = sorted(set(os.listdir(folder)) - {"names", "whole", "release", "damaged"})
            fault = judged(result, f"input {number}, {' '.join(words)}")
            # A release is whole or not there; text that lacks the lines of refused records is there, and the status says so.
            most = {"cut": 0, "vcf": 1}.get(words[0], -1)
            if left != (["made"] if "made" in words and result.returncode <= most else []):
                fault = fault or f"input {number}, {' '.join(words)}: left behind: {left}"
            for name in left:
                os.remove(f"{folder}/{name}")
            if fault:
                wrong += 1
                print(fault)
    print(f"fuzz.py: {count} damaged inputs, {wrong} wrong")
    return wrong > 0


sys.exit(main(*sys.argv[1:]))
