"""Runs the vectors of tests/vectors through the library that tools/host compiles: reading, fetching (at once, and from a record that was
read), walking, tallying, choosing, building and VCF lines, each answer and each lent buffer whole. The vectors come from an
implementation that shares nothing with this one.

    tests/vectors.sh
"""
import collections
import ctypes
import json
import pathlib
import sys

ROOT = pathlib.Path(__file__).resolve().parents[1]
sys.path.insert(0, str(ROOT / "bindings" / "python"))
# The calls themselves: a vector lends buffers of sizes of its own, which the module's functions do not.
from sikalumdo import _library as library  # noqa: E402

KINDS = ["ID", "ALLELE", "FILTER", "INFO", "FORMAT"]
TURNS = ["fresh", "begun", "id", "allele", "filter", "info", "format", "ended"]


def told(answer, accepted):
    """An answer as a vector has it: what was accepted, or the refusal's number and place."""
    return {"no": [answer >> 32, answer & 0xFFFFFFFF]} if answer >> 32 else accepted()


def signed(bits):
    return ctypes.c_int32(bits).value


def lent(kind, numbers):
    """Numbers in a list of their own, and how many they are; an empty one points somewhere, too."""
    return (kind * max(len(numbers), 1))(*numbers), len(numbers)


def buffer(room):
    """A buffer of a size, filled as the vectors fill it."""
    return lent(ctypes.c_uint8, [0x5A] * room)


def shown(held):
    held, size = held
    return bytes(held)[:size].hex()


def read(case, record):
    out = (ctypes.c_uint64 * 13)()
    answer = library.sikalumdo_read(record, len(record), *case["facts"], out, 13)
    names = ["length", "border", "chrom", "pos", "rlen", "qual", "alleles", "infos", "formats", "people"]
    site = dict(zip(names, out))
    del site["border"]
    site.update(chrom=signed(site["chrom"]), pos=signed(site["pos"]), rlen=signed(site["rlen"]))
    return told(answer, lambda: site)


def fetched(record, answer, out):
    part = record[out[3]:out[4]] if answer >> 32 == 0 else b""
    return {"answer": told(answer, lambda: {"type": out[1], "length": out[2], "place": out[3]}), "part": part.hex()}


def fetch(case, record):
    out = (ctypes.c_uint64 * 5)()
    kind = KINDS.index(case["kind"].upper())
    answer = library.sikalumdo_fetch(record, len(record), *case["facts"], kind, case["number"], out, 5)
    return fetched(record, answer, out)


def field_of(case, record):
    """A case of fetching by way of reading and the numbers that it told: reading's refusals, then that field."""
    site, out = (ctypes.c_uint64 * 13)(), (ctypes.c_uint64 * 5)()
    kind = KINDS.index(case["kind"].upper())
    answer = library.sikalumdo_read(record, len(record), *case["facts"], site, 13)
    if answer >> 32 == 0:
        answer = library.sikalumdo_field_of(record, len(record), site, 13, kind, case["number"], out, 5)
    return fetched(record, answer, out)


def walk(case, record):
    out = (ctypes.c_uint64 * 5)()
    record, at, pairs = record[:case.get("lent", len(record))], case.get("place"), []
    if at is None:
        answer = library.sikalumdo_first_pair(record, len(record), *case["facts"])
        if answer >> 32:
            return told(answer, None)
        at = answer
    while library.sikalumdo_pair(record, len(record), at, out, 5) >> 32 == 0:
        pairs.append({"key": signed(out[0]), "type": out[1], "length": out[2], "place": out[3]})
        at = out[4]
    return {"pairs": pairs, "end": at}


def tally(case, record):
    out = (ctypes.c_uint64 * 68)()
    answer = library.sikalumdo_tally(record, len(record), *case["facts"], out, 68)
    return told(answer, lambda: {"people": out[1], "without": out[2], "missing": out[3], "calls": list(out[4:4 + out[0]])})


def choose(case, record):
    choice, held = lent(ctypes.c_uint32, case["choice"]), buffer(case["room"])
    answer = library.sikalumdo_choose(record, len(record), *case["facts"], *choice, *held)
    return {"answer": told(answer, lambda: answer), "buffer": shown(held)}


def names(given):
    """A list of names as it is lent: the text, and where each name ends in it."""
    text = bytes.fromhex(given["text"])
    return [text, len(text), *lent(ctypes.c_uint32, given["ends"])]


def vcf_line(case, record):
    lists, held = [*names(case["strings"]), *names(case["contigs"])], buffer(case["room"])
    answer = library.sikalumdo_vcf_line(record, len(record), *case["facts"], *lists, *held)
    return {"answer": told(answer, lambda: answer), "buffer": shown(held)}


def value(kind, elements):
    """The name of a turn's function, and the value as it is lent."""
    if kind == "int":
        return "integers", lent(ctypes.c_int32, elements)
    if kind == "float":
        return "floats", lent(ctypes.c_uint32, elements)
    # text stands in the vectors both ways
    part = bytes.fromhex(elements) if isinstance(elements, str) else bytes(elements)
    return "text", (part, len(part))


def turn(case, what, given):
    """The function of a turn, and what it is given after state and buffer."""
    if what == "begin":
        return what, [*case["facts"], *given]
    if what in ("id", "allele"):
        part = bytes.fromhex(given[0])
        return what, [part, len(part)]
    if what == "filter":
        return what, lent(ctypes.c_int32, given[0])
    if what == "end":
        return what, []
    name, elements = value(given[1], given[-1])
    return f"{what}_{name}", [given[0], *given[2:-1], *elements]


def build(case, record):
    state, held, answers = lent(ctypes.c_uint32, [0] * 266), buffer(case["room"]), []
    library.sikalumdo_fresh(*state)
    for what, *given in case["turns"]:
        name, rest = turn(case, what, given)
        answer = getattr(library, "sikalumdo_" + name)(*state, *held, *rest)
        at, _, alleles, infos, formats, stage = state[0][4:10]
        answers.append(told(answer, lambda: {
            "at": at, "alleles": alleles, "infos": infos, "formats": formats, "turn": TURNS[stage]}))
    return {"answers": answers, "buffer": shown(held)}


def main():
    runs = [("read", read), ("fetch", fetch), ("fetch", field_of), ("walk", walk), ("tally", tally), ("choose", choose),
            ("build", build), ("vcf_line", vcf_line)]
    ran, wrong = collections.Counter(), 0
    for name, run in runs:
        for number, line in enumerate((ROOT / "tests" / "vectors" / f"{name}.jsonl").read_text("utf-8").splitlines(), 1):
            case = json.loads(line)
            ran[run.__name__] += 1
            got = run(case, bytes.fromhex(case["record"]))
            if got != case["want"]:
                wrong += 1
                print(f"{name}.jsonl:{number}: {run.__name__} got {str(got)[:300]}, wanted {str(case['want'])[:300]}")
    print("tests/vectors.sh: " + ", ".join(f"{n} of {op}" for op, n in ran.items()) + f", {wrong} wrong")
    return 1 if wrong or not ran else 0


if __name__ == "__main__":
    sys.exit(main())
