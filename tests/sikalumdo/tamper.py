"""Damages a plain BCF release in one known way, for tests/sikalumdo.sh: what `sikalumdo audit` has to find.

    tamper.py HOW RELEASE DAMAGED

Prints a word or two that the audit's page has to have. It knows enough of a record to find its fields, and nothing of what is allowed.
"""
import struct
import sys

WIDTHS = {0: 0, 1: 1, 2: 2, 3: 4, 5: 4, 7: 1}
END_OF_VECTOR = 0x81


def cut(data):
    """The header's bytes and the records."""
    start = 9 + struct.unpack_from("<I", data, 5)[0]
    head, records = data[:start], []
    while start < len(data):
        size = 8 + sum(struct.unpack_from("<II", data, start))
        records.append(bytearray(data[start:start + size]))
        start += size
    return head, records


def descriptor(record, at):
    """The type and the length that a descriptor says, and the place after it."""
    code, length = record[at] & 15, record[at] >> 4
    if length < 15:
        return code, length, at + 1
    width = WIDTHS[record[at + 1] & 15]
    return code, int.from_bytes(record[at + 2:at + 2 + width], "little"), at + 2 + width


def fields(record):
    """The INFO and FORMAT fields: kind, place of the descriptor, place of the first element, type, length, people."""
    shared = struct.unpack_from("<I", record)[0]
    counts, people = struct.unpack_from("<II", record, 24)
    alleles, infos, formats, people = counts >> 16, counts & 0xFFFF, people >> 24, people & 0xFFFFFF
    at = 32
    for _ in range(1 + alleles + 1):
        code, length, first = descriptor(record, at)
        at = first + length * WIDTHS[code]
    kinds = [("INFO", 1)] * infos + [("FORMAT", people)] * formats
    for kind, times in kinds:
        if kind == "FORMAT":
            at = max(at, 8 + shared)
        code, length, at = descriptor(record, at)
        at += length * WIDTHS[code]
        place = at
        code, length, first = descriptor(record, place)
        at = first + length * WIDTHS[code] * times
        yield kind, place, first, code, length, times


def gts(head, records):
    """Each record's GT: the record's number from 0, and the field. The strings are counted as bcftools writes them, with IDX."""
    line = next(line for line in head[9:].decode().split("\n") if line.startswith("##FORMAT=<ID=GT,"))
    gt = int(line.rsplit("IDX=", 1)[1].rstrip(">"))
    for number, record in enumerate(records):
        for kind, place, first, code, length, people in fields(record):
            if kind == "FORMAT" and code == 1 and length and record[place - 2:place] == bytes([0x11, gt]):
                yield number, first, length, people


def call(head, records):
    """One allele of a call becomes another."""
    for number, first, _, _ in gts(head, records):
        record = records[number]
        alleles = struct.unpack_from("<H", record, 26)[0]
        if alleles > 1 and record[first] in (2, 4):
            record[first] = 6 - record[first]
            return f"record {number + 1} ", "FORMAT GT of "
    raise SystemExit("no call to change")


def padded(head, records):
    """A slot of padding becomes an allele."""
    for number, first, length, people in gts(head, records):
        for slot in range(first + 1, first + length * people):
            if records[number][slot] == END_OF_VECTOR and records[number][slot - 1] != END_OF_VECTOR:
                records[number][slot] = 2
                return f"record {number + 1} ", "FORMAT GT of "
    raise SystemExit("no padding to change")


def exchanged(head, records):
    """The first two people whose calls differ have each other's."""
    for number, first, length, people in gts(head, records):
        record = records[number]
        one, two = first, first + length
        if people > 1 and record[one:two] != record[two:two + length]:
            record[one:two], record[two:two + length] = record[two:two + length], record[one:two]
            return f"record {number + 1} ", "are exchanged"
    raise SystemExit("nobody to exchange")


def dropped(head, records):
    del records[10]
    return "record 11 ", "is not at its place in the release"


def doubled(head, records):
    records.insert(11, records[10])
    return "record 12 ", "it stands twice"


def moved(head, records):
    records.insert(20, records.pop(10))
    return "record 11 ", "moved"


def moved_back(head, records):
    records.insert(10, records.pop(20))
    return "record 21 ", "moved"


def width(head, records):
    """A FORMAT value of one byte becomes the same of two, with its marks."""
    for number, record in enumerate(records):
        for kind, place, first, code, length, people in fields(record):
            if kind == "FORMAT" and code == 1 and 0 < length < 15:
                wide = {0x80: 0x8000, 0x81: 0x8001}
                signed = [wide.get(byte, (byte ^ 0x80) - 0x80 & 0xFFFF) for byte in record[first:first + length * people]]
                record[first:first + length * people] = struct.pack(f"<{len(signed)}H", *signed)
                record[place] += 1
                struct.pack_into("<I", record, 4, len(record) - 8 - struct.unpack_from("<I", record)[0])
                return f"record {number + 1} ", "the same values in other bytes, of type 2 in the release, type 1 by the source"
    raise SystemExit("no width to choose")


def info(head, records):
    """The first byte of an INFO integer changes."""
    for number, record in enumerate(records):
        for kind, place, first, code, length, people in fields(record):
            if kind == "INFO" and code == 1 and length == 1 and 0 < record[first] < 0x7F:
                record[first] += 1
                return f"record {number + 1} ", ": INFO "
    raise SystemExit("no INFO to change")


def headed(head, change):
    text = change(head[9:].decode())
    return head[:5] + struct.pack("<I", len(text)) + text.encode()


def reordered(text):
    """The last two people change places in the header alone."""
    start, last = text.rstrip("\n\0").rsplit("\n", 1)
    cells = last.split("\t")
    cells[-1], cells[-2] = cells[-2], cells[-1]
    return start + "\n" + "\t".join(cells) + "\n\0"


def named(text):
    """A line names the second person of the cohort, who left."""
    return text.replace("\n", "\n##SAMPLE=<ID=P1,Description=\"of blood\">\n", 1)


HEADS = {"reordered": (reordered, ("the people stand in another order",)), "named": (named, ("names P1, who left",))}
RECORDS = [call, padded, exchanged, dropped, doubled, moved, moved_back, width, info]


def main(how, release, damaged):
    with open(release, "rb") as file:
        head, records = cut(file.read())
    if how in HEADS:
        change, words = HEADS[how]
        head = headed(head, change)
    else:
        words = {one.__name__: one for one in RECORDS}[how](head, records)
    with open(damaged, "wb") as file:
        file.write(head + b"".join(records))
    print("\n".join(words))


main(*sys.argv[1:])
