"""Tests of the Python module on the samples and on the cases of the line program, whose answers came from the rules alone.

    python3 -m unittest discover -s bindings/python
"""
import copy
import inspect
import pathlib
import pickle
import subprocess
import sys
import unittest

import example_tally
import sikalumdo
from sikalumdo import ALLELE, FILTER, FORMAT, ID, INFO, Builder, Facts, Refusal, Site

ROOT = pathlib.Path(__file__).resolve().parents[2]
FACTS = Facts(strings=4, contigs=1, people=2, gt=3)
# The places of the allele and INFO counts, and of the FORMAT and people counts.
SITE_COUNTS, GENOTYPE_COUNTS = 24, 28


def sample(name):
    """The facts and the records of a file of samples."""
    first, *records = (ROOT / "samples" / name).read_text().split()
    return example_tally.facts_of(first), [bytes.fromhex(record) for record in records]


RECORD = sample("two-people.hex")[1][0]
# The names of its strings.
STRINGS = [b"PASS", b"q10", b"DP", b"GT"]
# The same with a bare 00 for FILTER, for the INFO value and for GT.
BARE_RECORD = b"\x21" + RECORD[1:4] + b"\3" + RECORD[5:37] + b"\0" + b"\x11\2\0" + b"\x11\3\0"


def edited(place, value, record=RECORD):
    """A record, the sample's as a rule, with another byte at a place."""
    return record[:place] + bytes([value]) + record[place + 1:]


def begun(people=2):
    """A builder after the sample's FILTER."""
    builder = Builder()
    builder.begin(FACTS._replace(people=people), 0, 14369, 1, 0x41E80000)
    builder.id(b"")
    builder.allele(b"G")
    builder.allele(b"A")
    builder.filter([0])
    return builder


class Case(unittest.TestCase):
    """What the tests of refusals share."""

    def assertRefused(self, number, place, function, *words):
        """The call raises that refusal."""
        with self.assertRaises(Refusal) as caught:
            function(*words)
        self.assertEqual((caught.exception.number, caught.exception.place), (number, place))


class Reading(Case):
    def test_numbers(self):
        site = sikalumdo.read(RECORD, FACTS)
        self.assertEqual(site, (50, 43, 0, 14369, 1, 0x41E80000, 2, 1, 1, 2, 1, 2, 46))
        self.assertEqual(site.gt_place, 46)

    def test_position_before_the_first(self):
        record = sikalumdo.read(RECORD[:12] + b"\xff" * 4 + RECORD[16:], FACTS)
        self.assertEqual((record.pos, record.vcf_pos), (-1, 0))

    def test_vcf_positions(self):
        for pos, told in ((14369, 14370), (0, 1), (0x7FFFFFFE, 0x7FFFFFFF)):
            record = RECORD[:12] + pos.to_bytes(4, "little") + RECORD[16:]
            self.assertEqual(sikalumdo.read(record, FACTS).vcf_pos, told)

    def test_no_gt(self):
        self.assertEqual(sikalumdo.read(RECORD, FACTS._replace(gt=0xFFFFFFFF))[-3:], (0, 0, 0))

    def test_other_objects(self):
        for record in (bytearray(RECORD), memoryview(RECORD), RECORD + b"next"):
            self.assertEqual(sikalumdo.read(record, FACTS).length, 50)
        for record in ("text", 50, None):
            self.assertRaises(TypeError, sikalumdo.read, record, FACTS)

    def test_refusals(self):
        for place, value, number, where in ((8, 1, 5, 8), (SITE_COUNTS + 2, 0, 5, SITE_COUNTS),
                                            (GENOTYPE_COUNTS, 3, 5, GENOTYPE_COUNTS), (32, 1, 6, 32), (33, 7, 7, 33),
                                            (34, 0x20, 9, 34), (38, 4, 8, 38), (40, 0x80, 8, 40), (42, 0x82, 9, 42),
                                            (45, 0x11, 4, 48), (46, 0xFF, 10, 46), (0, 23, 3, 31), (7, 1, 2, 0)):
            self.assertRefused(number, where, sikalumdo.read, edited(place, value), FACTS)
        self.assertRefused(1, 0, sikalumdo.read, b"", FACTS)
        self.assertRefused(1, 0, sikalumdo.read, RECORD[:-1], FACTS)

    def test_filter_twice(self):
        record = bytes([RECORD[0] + 1]) + RECORD[1:37] + b"\x21\x00\x00" + RECORD[39:]
        self.assertRefused(11, 39, sikalumdo.read, record, FACTS)

    def test_facts_that_do_not_fit(self):
        for people in (-1, 1 << 32):
            self.assertRaises(OverflowError, sikalumdo.read, RECORD, FACTS._replace(people=people))

    def test_refusal(self):
        refusal = Refusal(5, 24)
        self.assertEqual(str(refusal), "5 at byte 24: a fixed field or a count breaks its rule or, in building, would pass its most")
        self.assertEqual(pickle.loads(pickle.dumps(refusal)).place, 24)
        self.assertEqual(sorted(sikalumdo.REASONS), list(range(1, 19)))


class Fetching(Case):
    def test_fields(self):
        for kind, number, told, values in ((ID, 0, (0, 7, 0, 33, 33, b""), []), (ALLELE, 0, (0, 7, 1, 34, 35, b"G"), [71]),
                                           (ALLELE, 1, (0, 7, 1, 36, 37, b"A"), [65]), (FILTER, 0, (0, 1, 1, 38, 39, b"\0"), [0]),
                                           (INFO, 0, (2, 1, 1, 42, 43, b"\x0e"), [14]),
                                           (FORMAT, 0, (3, 1, 2, 46, 50, b"\2\3\4\x81"), [2, 3, 4, sikalumdo.END_OF_VECTOR])):
            field = sikalumdo.fetch(RECORD, FACTS, kind, number)
            self.assertEqual(field, told)
            self.assertEqual(field.values(), values)

    def test_no_such_field(self):
        for kind, number in ((ID, 1), (ALLELE, 2), (INFO, 1), (FORMAT, 1), (5, 0)):
            self.assertRefused(16, 0, sikalumdo.fetch, RECORD, FACTS, kind, number)
        self.assertRefused(1, 0, sikalumdo.fetch, RECORD[:9], FACTS, 5, 0)
        self.assertRaises(OverflowError, sikalumdo.fetch, RECORD, FACTS, INFO, -1)

    def test_read_once(self):
        """A record that was read gives the fields that fetching gives, and the same pairs."""
        hundred = sample("hundred-people.hex")
        for facts, data in ((FACTS, RECORD), (FACTS, BARE_RECORD), (hundred[0], hundred[1][0]), (FACTS, bytearray(RECORD + b"next"))):
            record = sikalumdo.read(data, facts)
            self.assertEqual(record.bytes, data[:record.length])
            for kind, count in ((ID, 1), (ALLELE, record.alleles), (FILTER, 1), (INFO, record.infos), (FORMAT, record.formats)):
                for number in range(count):
                    self.assertEqual(record.fetch(kind, number), sikalumdo.fetch(data, facts, kind, number))
                    self.assertEqual(sikalumdo.field_of(data, Site(*record), kind, number), record.fetch(kind, number))
                self.assertRefused(16, 0, record.fetch, kind, count)
            self.assertEqual(list(record.pairs()), list(sikalumdo.pairs(data, facts)))
            self.assertRefused(16, 0, record.fetch, 5, 0)
            self.assertRaises(OverflowError, record.fetch, INFO, -1)

    def test_read_is_a_site(self):
        record = sikalumdo.read(RECORD[:12] + b"\xff" * 4 + RECORD[16:], FACTS)
        self.assertIsInstance(record, Site)
        for again in (pickle.loads(pickle.dumps(record)), copy.deepcopy(record)):
            self.assertEqual((again, again.bytes), (record, record.bytes))
            self.assertEqual(again.fetch(FORMAT, 0), record.fetch(FORMAT, 0))
        self.assertIs(type(record._replace(infos=0)), Site)
        self.assertRefused(16, 0, sikalumdo.field_of, RECORD, record._replace(infos=0), INFO, 0)

    def test_other_sites(self):
        """Whatever numbers are given, the answer is a field inside the bytes, or 16."""
        site, most = Site(*sikalumdo.read(RECORD, FACTS)), (1 << 64) - 1
        sites = [site._replace(**{name: value}) for name in ("length", "border", "alleles", "infos", "formats", "people")
                 for value in (0, 1, 31, 33, 45, 49, 51, 255, 65535, (1 << 32) - 1, 1 << 32, most)]
        sites += [Site(value, value, -1, -1, -1, *[value] * 8) for value in (0, 50, most)]
        for other in sites:
            for kind in range(6):
                for number in (0, 1, 2, 4294967295):
                    try:
                        field = sikalumdo.field_of(RECORD, other, kind, number)
                    except Refusal as refusal:
                        self.assertEqual((refusal.number, refusal.place), (16, 0))
                    else:
                        self.assertTrue(0 < field.place <= field.stop <= len(RECORD))
        self.assertEqual(sikalumdo.field_of(RECORD, site._replace(formats=257, people=1), FORMAT, 0).part, b"\2\3")
        self.assertRaises(OverflowError, sikalumdo.field_of, RECORD, site._replace(length=-1), ID, 0)
        self.assertRaises(OverflowError, sikalumdo.field_of, RECORD, site._replace(pos=1 << 31), ID, 0)

    def test_shown(self):
        self.assertEqual(sikalumdo.shown(b"\x80\x81", sikalumdo.INT8, 1), 0x80000001)
        self.assertEqual(sikalumdo.shown(bytearray(b"\x00\x80"), sikalumdo.INT16, 0), 0x80000000)
        self.assertEqual(sikalumdo.shown(b"\x01\x00\x80\x7f", sikalumdo.FLOAT, 0), sikalumdo.FLOAT_MISSING)
        self.assertRefused(16, 0, sikalumdo.shown, b"\x01", sikalumdo.INT8, 1)
        self.assertRefused(16, 0, sikalumdo.shown, b"\x01", 4, 0)
        for index in (-1, 1 << 64):
            self.assertRaises(OverflowError, sikalumdo.shown, b"\x01", sikalumdo.INT8, index)

    def test_pairs(self):
        walk = sikalumdo.pairs(RECORD, FACTS)
        self.assertTrue(inspect.isgenerator(walk))
        self.assertEqual(list(walk), [(2, 1, 1, 42, 43, b"\x0e")])
        self.assertRefused(1, 0, sikalumdo.pairs, b"", FACTS)

    def test_pairs_are_the_fetched_fields(self):
        builder = begun()
        builder.info_integers(1, [-121, sikalumdo.MISSING])
        builder.info_floats(1, [0x3F800000])
        builder.info_text(0, b"ab\0")
        builder.end()
        found = list(sikalumdo.pairs(builder.record, FACTS))
        self.assertEqual(found, [sikalumdo.fetch(builder.record, FACTS, INFO, number) for number in range(3)])
        self.assertEqual([field.values() for field in found], [[-121, sikalumdo.MISSING], [0x3F800000], [97, 98, 0]])


class Tallying(Case):
    def test_sample(self):
        told = sikalumdo.tally(RECORD, FACTS)
        self.assertEqual(told, (50, 2, 0, 0, (2, 1)))

    def test_sixty_five_alleles(self):
        builder = Builder()
        builder.begin(FACTS, 0, 0, 1, sikalumdo.FLOAT_MISSING)
        builder.id(b"")
        for _ in range(65):
            builder.allele(b"N")
        builder.filter([])
        builder.end()
        self.assertRefused(15, 0, sikalumdo.tally, builder.record, FACTS)

    def test_lines(self):
        """The cases of bcflines: what is printed there is what the library tells here, for every whole record."""
        seen = 0
        for case in sorted((ROOT / "tests" / "lines").glob("*.in")):
            frames = case.read_bytes().decode("latin-1").split("\n")
            answers = case.with_suffix(".out").read_text().split("\n")
            for frame, answer in zip(frames[1:], answers):
                if answer.startswith(("ok", "no")):
                    seen += 1
                    self.assertEqual(printed(bytes.fromhex(frame), example_tally.facts_of(frames[0])), answer)
        self.assertGreater(seen, 1000)


def printed(record, facts):
    """The line that bcflines prints of a record that is alone on its line."""
    try:
        site = sikalumdo.read(record, facts)
        counts = [site.length, site.alleles, site.infos, site.formats, site.people]
        if site.alleles <= 64:
            told = sikalumdo.tally(record, facts)
            counts += [told.without, told.missing, *told.calls]
        return " ".join(["ok", *map(str, counts)])
    except Refusal as refusal:
        return f"no {refusal.number} {refusal.place}"


class Choosing(Case):
    def test_second_person(self):
        chosen = sikalumdo.choose(RECORD, FACTS, [1])
        one_person = b"\1" + RECORD[GENOTYPE_COUNTS + 1:46]
        self.assertEqual(chosen, RECORD[:4] + b"\5" + RECORD[5:GENOTYPE_COUNTS] + one_person + b"\x04\x81")
        self.assertEqual(sikalumdo.tally(chosen, FACTS._replace(people=1)).calls, (0, 1))

    def test_everybody_and_nobody(self):
        self.assertEqual(sikalumdo.choose(RECORD + b"next", FACTS, (0, 1)), RECORD)
        no_people = b"\0\0\0\0" + RECORD[GENOTYPE_COUNTS + 4:43]
        self.assertEqual(sikalumdo.choose(RECORD, FACTS, []), RECORD[:4] + b"\0" + RECORD[5:GENOTYPE_COUNTS] + no_people)

    def test_refusals(self):
        for choice in ([1, 0], [0, 0], [2]):
            self.assertRefused(14, 0, sikalumdo.choose, RECORD, FACTS, choice)
        self.assertRefused(5, 8, sikalumdo.choose, edited(8, 1), FACTS, [2])
        self.assertRaises(OverflowError, sikalumdo.choose, RECORD, FACTS, [-1])

    def test_sixty_of_a_hundred(self):
        facts, records = sample("hundred-people.hex")
        gone = set(map(int, (ROOT / "samples" / "withdrawn.txt").read_text().split()))
        stay = [person for person in range(100) if person not in gone]
        for record in records:
            every = sikalumdo.fetch(record, facts, FORMAT, 0).values()
            kept = sikalumdo.choose(record, facts, stay)
            rest = sikalumdo.fetch(kept, facts._replace(people=60), FORMAT, 0).values()
            self.assertEqual(rest, [code for person in stay for code in every[2 * person:2 * person + 2]])


class Printing(Case):
    def line(self, record=RECORD, strings=STRINGS, contigs=(b"20",)):
        return sikalumdo.vcf_line(record, FACTS, strings, contigs)

    def test_sample(self):
        wanted = b"20\t14370\t.\tG\tA\t29\tPASS\t.\tGT\t0|0\t1\n"
        self.assertEqual(self.line(), wanted)
        self.assertEqual(self.line(bytearray(RECORD + b"next"), sikalumdo.Names(STRINGS), iter([b"20", b"X"])), wanted)

    def test_names(self):
        """They stop at a zero byte, and an empty one is printed as nothing."""
        filters = b"\x25" + RECORD[1:37] + b"\x31\2\0\1" + RECORD[39:]
        line = self.line(filters, [b"PASS\0ED", b"", bytearray(b"DP"), b"GT"], [b"chr\x801"])
        self.assertEqual(line.split(b"\t")[6], b"DP;PASS;")
        self.assertEqual(line.split(b"\t")[0], b"chr\x801")

    def test_quals(self):
        for bits, printed in ((sikalumdo.FLOAT_MISSING, b"."), (0x80000000, b"0"), (0x4B7FFFFF, b"16777215")):
            self.assertEqual(self.line(RECORD[:20] + bits.to_bytes(4, "little") + RECORD[24:]).split(b"\t")[5], printed)
        for bits in (0x4B800000, 0x3F000000, 0xBF800000, 0x7F800000, 0x7FC00000):
            self.assertRefused(17, 0, self.line, RECORD[:20] + bits.to_bytes(4, "little") + RECORD[24:], [])

    def test_refusals(self):
        self.assertRefused(5, 8, self.line, edited(8, 1), [])
        self.assertRefused(18, 0, self.line, RECORD, STRINGS[:3])
        self.assertRefused(18, 0, self.line, RECORD, STRINGS, [])
        self.assertRaises(TypeError, self.line, RECORD, ["PASS"] * 4)

    def test_the_room_grows(self):
        name = b"c" * 10000
        self.assertEqual(self.line(RECORD, STRINGS, [name]), name + self.line()[2:])

    def test_columns(self):
        facts, (record, *_) = sample("hundred-people.hex")
        line = sikalumdo.vcf_line(record, facts, [b"s"] * facts.strings, [b"c"] * facts.contigs)
        self.assertEqual(len(line.split(b"\t")), 9 + 100)
        without = sikalumdo.vcf_line(record, facts._replace(gt=0xFFFFFFFF), [b"s"] * facts.strings, [b"c"] * facts.contigs)
        self.assertEqual(without, b"\t".join(line.split(b"\t")[:8]) + b"\n")
        nobody = self.line(BARE_RECORD)
        self.assertTrue(nobody.endswith(b"\t.\t.\tGT\t.\t.\n"), nobody)


class BareValues(Case):
    def test_read(self):
        site = sikalumdo.read(BARE_RECORD, FACTS)
        self.assertEqual((site.length, site.gt_type, site.gt_length, site.gt_place), (44, sikalumdo.BARE, 0, 44))

    def test_fetched(self):
        for kind, key, place in ((FILTER, 0, 38), (INFO, 2, 41), (FORMAT, 3, 44)):
            field = sikalumdo.fetch(BARE_RECORD, FACTS, kind, 0)
            self.assertEqual(field, (key, sikalumdo.BARE, 0, place, place, b""))
            self.assertEqual(field.values(), [])
        self.assertRefused(16, 0, sikalumdo.shown, b"", sikalumdo.BARE, 0)

    def test_walked(self):
        self.assertEqual(list(sikalumdo.pairs(BARE_RECORD, FACTS)), [(2, sikalumdo.BARE, 0, 41, 41, b"")])

    def test_tallied(self):
        self.assertEqual(sikalumdo.tally(BARE_RECORD, FACTS), (44, 2, 2, 0, (0, 0)))

    def test_chosen(self):
        self.assertEqual(sikalumdo.choose(BARE_RECORD, FACTS, [1]), edited(GENOTYPE_COUNTS, 1, BARE_RECORD))

    def test_refused_elsewhere(self):
        """00 for the ID, REF and the two keys; other lengths for FILTER, the INFO value and GT."""
        for place, value in ((32, 0), (33, 0), (38, 0), (41, 0), (37, 0x10), (40, 0xF0), (43, 0x20)):
            self.assertRefused(6, place, sikalumdo.read, edited(place, value, BARE_RECORD), FACTS)


class Building(Case):
    def test_sample(self):
        builder = begun()
        self.assertEqual(builder.info_integers(2, [14]), 43)
        self.assertEqual(builder.format_integers(3, 2, [2, 3, 4, sikalumdo.END_OF_VECTOR]), 50)
        self.assertEqual(builder.end(), 50)
        self.assertEqual(builder.record, RECORD)
        self.assertRefused(12, 0, builder.end)

    def test_refused_turns_leave_the_build(self):
        builder = begun()
        before = builder.record
        for number, turn, *words in ((12, builder.allele, b"C"), (8, builder.info_integers, 4, [1]), (9, builder.info_text, 1, b"a\0b"),
                                     (9, builder.info_floats, 1, [0x7F800003]), (7, builder.format_integers, 2, 2, [1]),
                                     (10, builder.format_integers, 3, 1, [6, 0]), (6, builder.format_floats, 3, 1, [0]),
                                     (6, builder.format_text, 3, 1, b"ab"), (8, builder.format_text, -1, 1, b"ab")):
            self.assertRefused(number, 0, turn, *words)
            self.assertEqual(builder.record, before)
        builder.info_integers(2, [14])
        builder.format_integers(3, 2, [2, 3, 4, sikalumdo.END_OF_VECTOR])
        self.assertRefused(11, 0, builder.format_integers, 3, 2, [2, 3, 4, 5])
        builder.end()
        self.assertEqual(builder.record, RECORD)

    def test_refused_beginnings(self):
        builder = Builder()
        self.assertRefused(12, 0, builder.id, b"")
        for chrom, pos, rlen, qual in ((1, 0, 0, 0), (0, -2, 0, 0), (0, 0, -1, 0), (0, 0, 0, 0x7F800002)):
            self.assertRefused(5, 0, builder.begin, FACTS, chrom, pos, rlen, qual)
        self.assertEqual(builder.begin(FACTS, 0, -1, 0, 0), 32)
        builder.id(b"")
        self.assertRefused(7, 0, builder.allele, b"")
        builder.allele(b"G")
        self.assertRefused(11, 0, builder.filter, [1, 1])
        self.assertRefused(8, 0, builder.filter, [1, 4, 1])

    def test_format_types(self):
        builder = begun()
        builder.format_floats(1, 2, [0xBF800000, sikalumdo.FLOAT_MISSING, 0x3F800000, sikalumdo.FLOAT_END_OF_VECTOR])
        builder.format_text(0, 2, b"aba\0")
        builder.end()
        floats, text = (sikalumdo.fetch(builder.record, FACTS, FORMAT, number) for number in range(2))
        self.assertEqual(floats.values(), [0xBF800000, 0x7F800001, 0x3F800000, 0x7F800002])
        self.assertEqual((floats.key, floats.type, floats.length), (1, sikalumdo.FLOAT, 2))
        self.assertEqual((text.key, text.type, text.length, text.part), (0, sikalumdo.TEXT, 2, b"aba\0"))

    def test_no_people(self):
        self.assertRefused(5, 0, begun(people=0).format_integers, 2, 0, [])

    def test_the_buffer_grows(self):
        builder = begun()
        long = bytes(range(1, 256)) * 100
        builder.info_text(1, long)
        builder.format_integers(2, 300, range(600))
        builder.end()
        self.assertEqual(sikalumdo.fetch(builder.record, FACTS, INFO, 0).part, long)
        self.assertEqual(sikalumdo.fetch(builder.record, FACTS, FORMAT, 0).values(), list(range(600)))

    def test_the_longest_record(self):
        builder = begun()
        room = 16777216 - 39 - 2 - 6
        self.assertRefused(2, 0, builder.info_text, 1, b"a" * (room + 1))
        self.assertEqual(builder.info_text(1, b"a" * room), 16777216)
        self.assertRefused(2, 0, builder.info_integers, 1, [])
        builder.end()
        self.assertEqual(sikalumdo.read(builder.record, FACTS).length, 16777216)

    def test_numbers_that_do_not_fit(self):
        builder = begun()
        self.assertRaises(OverflowError, builder.info_integers, 1 << 31, [])
        self.assertRaises(OverflowError, builder.info_integers, 1, [1 << 31])
        self.assertRaises(OverflowError, builder.info_floats, 1, [-1])
        self.assertRaises(TypeError, builder.info_text, 1, "text")


class Example(unittest.TestCase):
    def run_on(self, text):
        """What the example prints, and its status."""
        done = subprocess.run([sys.executable, example_tally.__file__], input=text, capture_output=True, text=True, check=False)
        return done.stdout, done.returncode

    def test_as_its_docstring_says(self):
        command = "    $ python3 bindings/python/example_tally.py < samples/two-people.hex\n"
        shown = example_tally.__doc__.partition(command)[2].split("\n")[0].strip()
        self.assertEqual(self.run_on((ROOT / "samples" / "two-people.hex").read_text()), (shown + "\n", 0))

    def test_refused(self):
        printed_line, status = self.run_on("00000004000000010000000200000003\n" + RECORD[:49].hex() + "\n")
        self.assertEqual((printed_line, status), (f"refused: 1 at byte 0: {sikalumdo.REASONS[1]}\n", 1))


if __name__ == "__main__":
    unittest.main()
