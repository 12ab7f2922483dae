"""Prints a VCF of many people with GT, DP, GQ and PL, or repeats the records of a plain BCF file, for bench/files.

    cohort.py made PEOPLE RECORDS        VCF text
    cohort.py repeated TIMES < BCF       the same file with its records so many times over
"""
import random
import struct
import sys

FORMATS = [("GT", "1", "String"), ("DP", "1", "Integer"), ("GQ", "1", "Integer"), ("PL", "G", "Integer")]
CALLS = ["0/0"] * 12 + ["0/1"] * 5 + ["1/1", "./."]


def made(people, records):
    rng = random.Random("bench")
    print("##fileformat=VCFv4.3\n##contig=<ID=20>")
    for name, number, kind in FORMATS:
        print(f'##FORMAT=<ID={name},Number={number},Type={kind},Description="{name}">')
    print("#CHROM\tPOS\tID\tREF\tALT\tQUAL\tFILTER\tINFO\tFORMAT", *(f"P{number}" for number in range(people)), sep="\t")
    for record in range(records):
        columns = [f"{rng.choice(CALLS)}:{rng.randint(0, 90)}:{rng.randint(0, 99)}:0,{rng.randint(1, 120)},{rng.randint(200, 2000)}" for _ in range(people)]
        print("20", 1000 + record, ".", "A", "C", "50", "PASS", ".", "GT:DP:GQ:PL", *columns, sep="\t")


def repeated(times):
    data = sys.stdin.buffer.read()
    start = 9 + struct.unpack_from("<I", data, 5)[0]
    sys.stdout.buffer.write(data[:start])
    for _ in range(times):
        sys.stdout.buffer.write(data[start:])


def main(what, *numbers):
    {"made": made, "repeated": repeated}[what](*map(int, numbers))


main(*sys.argv[1:])
