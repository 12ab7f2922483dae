"""Sikalumdo for Python: one BCF2 record at a time, read, fetched from, walked, tallied, cut, printed or built, on ctypes alone.

    import sikalumdo
    facts = sikalumdo.Facts(strings=4, contigs=1, people=2, gt=3)
    record = sikalumdo.read(data, facts)
    depth = record.fetch(sikalumdo.INFO, 0).values()

Every rule of the format is the library's; this module turns Python's values into what the library is lent, and its
answers into Python's values. A refusal raises `Refusal`. A number that does not fit the library's own, as a negative
person or an integer over 32 bits, raises OverflowError before the library is asked.

A record is any bytes-like object, and begins at its first byte; bytes after the record are left alone. Objects other
than `bytes` are copied at each call. Places and lengths of records are in bytes; indices and numbers count from 0.

Who wants more than one value reads the record once, and fetches from the Record that `read` answers: each of its
fetches goes to its field and judges nothing again. `fetch` and `pairs`, which take the facts, read the record each time.

The library is the file that the environment variable SIKALUMDO_LIBRARY names or, without it, target/host/libc_api.so
of this repository, which `tools/host c_api` writes.
"""
import array
import collections
import ctypes
import itertools
import os
import pathlib

ID, ALLELE, FILTER, INFO, FORMAT = range(5)
"""The kinds of fields, for `fetch`."""

BARE, INT8, INT16, INT32, FLOAT, TEXT = 0, 1, 2, 3, 5, 7
"""The types of elements, as `Field.type` has them; BARE is that of a bare 00, a missing value without elements."""

MISSING, END_OF_VECTOR = -0x80000000, -0x7FFFFFFF
"""The marks of integers of any width, as they are shown and given."""

FLOAT_MISSING, FLOAT_END_OF_VECTOR = 0x7F800001, 0x7F800002
"""The marks of floats, as bits."""

REASONS = {
    1: "fewer bytes than the record's length, or than 8",
    2: "the record is, or would be, over 16,777,216 bytes",
    3: "a value needs bytes past its block, or l_shared is below 24",
    4: "a block has bytes over",
    5: "a fixed field or a count breaks its rule or, in building, would pass its most",
    6: "a type that is unused or wrong there, or a key or true length that is not one integer",
    7: "true length below 15, empty allele, or a list that is not people x length",
    8: "a key or filter outside the dictionary",
    9: "reserved value, element after an end of vector, or bad allele byte",
    10: "GT code negative, or allele too high",
    11: "filter or FORMAT key repeated",
    12: "builder turn out of order",
    13: "lent buffer too short for what would be written",
    14: "choice not ascending or out of range",
    15: "tally of more than 64 alleles",
    16: "no field of that number",
    17: "QUAL not printable: it is not missing and no whole number of 0 to 16,777,215",
    18: "a list of names shorter than its dictionary",
}
"""What each refusal's number says."""


class Refusal(Exception):
    """What the library does not accept.

    number: int, a key of REASONS.
    place: int, bytes from the record's start; 0 where the number has no place, and in building.
    text: str, what the number says.
    """

    def __init__(self, number, place):
        """A refusal of a number, a key of REASONS, at a place in bytes."""
        self.number = number
        self.place = place
        self.text = REASONS[number]
        super().__init__(number, place)

    def __str__(self):
        """Number, place and text in one line."""
        return f"{self.number} at byte {self.place}: {self.text}"


Facts = collections.namedtuple("Facts", "strings contigs people gt")
Facts.__doc__ = """What a file's header says of its records, four ints of 0 to 4294967295.

strings: size of the dictionary; contigs: how many; people: how many; gt: dictionary offset of GT, where one that no
key meets, as 4294967295, says that there is no GT.
"""

Site = collections.namedtuple(
    "Site", "length border chrom pos rlen qual alleles infos formats people gt_type gt_length gt_place")
Site.__doc__ = """What reading answers, all ints.

length: bytes of the record; border: place of the genotype block; chrom: contig's number; pos: zero-based position, one
less than VCF's (`vcf_pos` of a Record); rlen: bases; qual: 32 float bits, FLOAT_MISSING for none; alleles (with REF),
infos, formats, people: counts; gt_type: GT's type; gt_length: elements for each person; gt_place: place of the first,
just after the descriptor where there is none; all three 0 without GT.
"""

Tally = collections.namedtuple("Tally", "length people without missing calls")
Tally.__doc__ = """What a tally answers.

length: bytes of the record; people: how many; without: people without a genotype; missing: missing alleles; calls: a
tuple of how often each allele of the record is called, REF first.
"""


class Field(collections.namedtuple("Field", "key type length place stop part")):
    """A fetched field, or an INFO pair.

    key: dictionary offset, 0 for ID, alleles and FILTER; type: BARE, INT8, INT16, INT32, FLOAT or TEXT; length:
    elements, of a FORMAT value those of each person; place, stop: of the first element and after the last; part: the
    elements' bytes as they stand in the record.
    """

    __slots__ = ()

    def values(self):
        """The elements as a list of ints: signed integers with MISSING and END_OF_VECTOR, floats as bits, text as bytes.

        All people's elements of a FORMAT value, each person's vector in turn. The library is called for each element.
        """
        found = []
        for index in itertools.count():
            answer = _library.sikalumdo_shown(self.part, len(self.part), self.type, index)
            if answer >> 32:
                return found
            found.append(_low(answer) if self.type == FLOAT else _signed(_low(answer)))


class Record(Site):
    """A record that was read: a Site, and the record's bytes, from which fields are fetched without reading it again.

    bytes: the record's own bytes. It is equal to any Site of the same numbers, as tuples are.
    """

    def __new__(cls, site, part):
        """The Site that reading told of the bytes of a record. `read` makes it."""
        record = super().__new__(cls, *site)
        record.bytes = part
        record._held = _told(site)
        return record

    def __reduce__(self):
        """What it is made of again, for copies and pickles."""
        return Record, (tuple(self), self.bytes)

    def _replace(self, **numbers):
        """A Site with other numbers, which are no longer those of these bytes."""
        return Site(*self)._replace(**numbers)

    @property
    def vcf_pos(self):
        """The VCF position, where the first base is 1: one more than pos, and 0 for -1."""
        return _library.sikalumdo_vcf_pos(_low(self.pos))

    def fetch(self, kind, number):
        """The field of a kind and a number, as `fetch` answers it. Raises Refusal 16 where there is no such field or kind."""
        return _fetched(self.bytes, self._held, kind, number)

    def pairs(self):
        """A generator of the INFO pairs, as `pairs` gives them. The first one stands where FILTER stops."""
        return _walk(self.bytes, self.fetch(FILTER, 0).stop)


def read(record, facts):
    """Reads the record and answers a Record: its Site, and its bytes to fetch from. Raises Refusal 1 to 11."""
    record = _bytes(record)
    out = (ctypes.c_uint64 * len(Site._fields))()
    length = _accepted(_library.sikalumdo_read(*_lent(record, facts), out, len(out)))
    site = Site(*out)
    site = site._replace(chrom=_signed(site.chrom), pos=_signed(site.pos), rlen=_signed(site.rlen))
    return Record(site, record[:length])


def fetch(record, facts, kind, number):
    """Fetches the field of a kind (ID, ALLELE, FILTER, INFO or FORMAT) and a number from 0, and answers it as a Field.

    ID and FILTER have number 0 only. Raises read's refusals, then Refusal 16 where there is no such field or kind.
    """
    record = _bytes(record)
    out = (ctypes.c_uint64 * 5)()
    _accepted(_library.sikalumdo_fetch(*_lent(record, facts), _word(kind), _word(number), out, len(out)))
    return _field(record, out)


def field_of(record, site, kind, number):
    """Fetches from a record that was read, by the Site that reading told; the record is not read or judged again.

    Answers what `fetch` answers. With any other numbers in the Site, each of 0 to 2^64 - 1, it is the field that stands
    whole where they lead. Raises Refusal 16 where there is none, or no such kind.
    """
    return _fetched(_bytes(record), _told(site), kind, number)


def shown(part, code, index):
    """The 32 bits, an int of 0 or more, that an element is shown by.

    part: a field's bytes; code: its type; index: from 0. Raises Refusal 16 past the last element, or for another type.
    """
    part = _bytes(part)
    index = _within(index, 0, _MOST_SIZE)
    return _accepted(_library.sikalumdo_shown(part, len(part), _within(code, 0, 255), index))


def tally(record, facts):
    """Counts the record's genotypes and answers a Tally. Raises read's refusals, then Refusal 15 over 64 alleles."""
    out = (ctypes.c_uint64 * 68)()
    length = _accepted(_library.sikalumdo_tally(*_lent(record, facts), out, len(out)))
    alleles, people, without, missing = out[:4]
    return Tally(length, people, without, missing, tuple(out[4:4 + alleles]))


def choose(record, facts, choice):
    """The record, as bytes, of some of the people: `choice` has their numbers from 0, ascending; it may be empty.

    Raises read's refusals, then Refusal 14 for a choice that does not ascend or names nobody.
    """
    record = _bytes(record)
    chosen = (ctypes.c_uint8 * (len(record) + 1))()
    answer = _library.sikalumdo_choose(*_lent(record, facts), *_listed("I", choice), chosen, len(chosen))
    return bytes(chosen[:_accepted(answer)])


class Names:
    """Names as the library is lent them, made once for many lines: a list of bytes, one for each string or contig in order.

    A name stops at its first zero byte. A gap in a dictionary has an empty name.
    """

    def __init__(self, names):
        """The names of any iterable of bytes-like objects."""
        names = [_bytes(name) for name in names]
        self._held = (*_text(b"".join(names)), *_listed("I", itertools.accumulate(map(len, names))))


def vcf_line(record, facts, strings, contigs):
    """The record's VCF line as bytes, ended by a line feed: CHROM to FILTER, a dot for INFO and, with GT, each person's call.

    strings, contigs: the names by offset, each a list of bytes or a Names; they may be more than the facts say. Raises
    read's refusals, then Refusal 17 for a QUAL that is neither missing nor a whole number of 0 to 16,777,215, then 18
    for fewer names than the facts say.
    """
    lists = [names if isinstance(names, Names) else Names(names) for names in (strings, contigs)]
    words = (*_lent(record, facts), *lists[0]._held, *lists[1]._held)
    room = 256 + 2 * len(_bytes(record))
    while True:
        line = (ctypes.c_uint8 * room)()
        answer = _library.sikalumdo_vcf_line(*words, line, room)
        if answer >> 32 != 13:
            return bytes(memoryview(line)[:_accepted(answer)])
        room *= 2


def pairs(record, facts):
    """A generator of the record's INFO pairs, each a Field, in their order. Raises read's refusals, before the first."""
    record = _bytes(record)
    return _walk(record, _accepted(_library.sikalumdo_first_pair(*_lent(record, facts))))


class Builder:
    """Builds one record turn by turn: begin, id, allele once or more, filter, info_.. and format_.. at will, end.

    Each turn answers the bytes written so far. A refused one raises Refusal (place 0) and leaves the build as it was,
    so that another may follow. Turns refuse with 12 out of order, and with 2 where the record would be too long. The
    buffer grows as it must. A Builder is for one record and one thread.
    """

    def __init__(self):
        """A fresh build, for which begin is the first turn."""
        self._state = (ctypes.c_uint32 * 266)()
        self._buffer = bytearray(256)
        self._written = _accepted(_library.sikalumdo_fresh(self._state, len(self._state)))

    def _turn(self, function, *words):
        """Takes a turn, in a buffer of twice the size as long as 13 says that it is too short: nothing is written then."""
        while True:
            lent = (ctypes.c_uint8 * len(self._buffer)).from_buffer(self._buffer)
            answer = function(self._state, len(self._state), lent, len(lent), *words)
            if answer >> 32 != 13:
                self._written = _accepted(answer)
                return self._written
            self._buffer = self._buffer + bytes(len(self._buffer))

    @property
    def record(self):
        """The bytes written so far; after `end`, the record."""
        return bytes(self._buffer[:self._written])

    def begin(self, facts, chrom, pos, rlen, qual):
        """Begins: Facts, the contig's number, the zero-based position, bases, QUAL's float bits. Refuses with 5."""
        fixed = (_integer(chrom), _integer(pos), _integer(rlen), _word(qual))
        return self._turn(_library.sikalumdo_begin, *_words(facts), *fixed)

    def id(self, text):
        """Gives the ID, bytes; none for no ID. Refuses with 9 for a byte after a zero byte."""
        return self._turn(_library.sikalumdo_id, *_text(text))

    def allele(self, text):
        """Gives an allele, bytes, REF first. Refuses with 5 past 65,535, 7 for no bytes, 9 for a byte outside 21 to 7E."""
        return self._turn(_library.sikalumdo_allele, *_text(text))

    def filter(self, offsets):
        """Gives FILTER as dictionary offsets; none for no filter applied. Refuses with 8 outside, 11 for one twice."""
        return self._turn(_library.sikalumdo_filter, *_listed("i", offsets))

    def info_integers(self, key, values):
        """Gives an INFO field of signed integers, with marks. Refuses with 5 past 65,535 fields, 8 for the key, 9."""
        return self._turn(_library.sikalumdo_info_integers, _integer(key), *_listed("i", values))

    def info_floats(self, key, bits):
        """Gives an INFO field of floats by their 32 bits. Refuses as info_integers does."""
        return self._turn(_library.sikalumdo_info_floats, _integer(key), *_listed("I", bits))

    def info_text(self, key, part):
        """Gives an INFO field of text, bytes. Refuses as info_integers does."""
        return self._turn(_library.sikalumdo_info_text, _integer(key), *_text(part))

    def format_integers(self, key, length, values):
        """Gives a FORMAT field of signed integers, `length` for each person, each person's in turn; GT as its codes.

        Refuses with 5 without people or past 255 fields, 8 for the key, 11 for a key twice, 7 where the values are
        not people x length, and by element 9 or, in GT, 10.
        """
        return self._turn(_library.sikalumdo_format_integers, _integer(key), _word(length), *_listed("i", values))

    def format_floats(self, key, length, bits):
        """Gives a FORMAT field of floats by their 32 bits. Refuses as format_integers does, with 6 for GT before 7."""
        return self._turn(_library.sikalumdo_format_floats, _integer(key), _word(length), *_listed("I", bits))

    def format_text(self, key, length, part):
        """Gives a FORMAT field of text, `length` bytes for each person. Refuses as format_floats does."""
        return self._turn(_library.sikalumdo_format_text, _integer(key), _word(length), *_text(part))

    def end(self):
        """Ends the record, whose bytes `record` then is, and answers its length. Refuses with 12."""
        return self._turn(_library.sikalumdo_end)


_MOST_SIZE = ctypes.c_size_t(-1).value
_MOST_NUMBER = ctypes.c_uint64(-1).value


def _within(value, low, high):
    """A number that ctypes may pass: it would cut one that is out of range without a word."""
    if not low <= value <= high:
        raise OverflowError(f"{value} is not within {low} to {high}")
    return value


def _word(value):
    """An unsigned number of 32 bits."""
    return _within(value, 0, 0xFFFFFFFF)


def _integer(value):
    """A signed number of 32 bits."""
    return _within(value, -0x80000000, 0x7FFFFFFF)


def _signed(bits):
    """The signed number that 32 bits are."""
    return ctypes.c_int32(bits).value


def _low(answer):
    """The low half of an answer."""
    return answer & 0xFFFFFFFF


def _accepted(answer):
    """The low half of an answer; its refusal is raised."""
    if answer >> 32:
        raise Refusal(answer >> 32, _low(answer))
    return _low(answer)


def _bytes(part):
    """A bytes-like object as bytes. A number is none, though bytes() would make zeros of it."""
    return part if isinstance(part, bytes) else bytes(memoryview(part))


def _text(part):
    """Bytes as they are lent, and how many they are."""
    part = _bytes(part)
    return part, len(part)


def _words(facts):
    """Facts as the library takes them."""
    strings, contigs, people, gt = facts
    return _word(strings), _word(contigs), _word(people), _word(gt)


def _told(site):
    """A Site's numbers as reading told them: CHROM, POS and rlen, which may be negative, as their 32 bits."""
    length, border, chrom, pos, rlen, *rest = site
    signed = (_low(_integer(value)) for value in (chrom, pos, rlen))
    numbers = (_within(value, 0, _MOST_NUMBER) for value in (length, border, *signed, *rest))
    return (ctypes.c_uint64 * len(Site._fields))(*numbers)


def _lent(record, facts):
    """A record and its facts as the library takes them."""
    return (*_text(record), *_words(facts))


def _listed(code, values):
    """A list of numbers, signed ("i") or not ("I"), as it is lent, and how many it has.

    It is held with one number more, since the pointer to an empty list, too, has to point somewhere.
    """
    held = array.array(code, values)
    count = len(held)
    held.append(0)
    return ((ctypes.c_int32 if code == "i" else ctypes.c_uint32) * len(held)).from_buffer(held), count


def _fetched(record, held, kind, number):
    """The field of a record that was read, by the numbers that reading told."""
    out = (ctypes.c_uint64 * 5)()
    words = (_word(kind), _word(number))
    _accepted(_library.sikalumdo_field_of(record, len(record), held, len(held), *words, out, len(out)))
    return _field(record, out)


def _field(record, out):
    """The field that five numbers tell of a record."""
    key, code, length, place, stop = out
    return Field(key, code, length, place, stop, record[place:stop])


def _walk(record, at):
    """The INFO pairs of a record that was read, from a place on."""
    out = (ctypes.c_uint64 * 5)()
    while _library.sikalumdo_pair(record, len(record), at, out, len(out)) >> 32 == 0:
        field = _field(record, out)
        yield field
        at = field.stop


def _load():
    """The library, with what each function takes."""
    beside = pathlib.Path(__file__).resolve().parents[2] / "target" / "host" / "libc_api.so"
    path = os.environ.get("SIKALUMDO_LIBRARY") or str(beside)
    if not os.path.exists(path):
        raise OSError(f"there is no {path}: run tools/host c_api, or name the library in SIKALUMDO_LIBRARY")
    library = ctypes.CDLL(path)
    size, word, integer = ctypes.c_size_t, ctypes.c_uint32, ctypes.c_int32
    text = [ctypes.c_char_p, size]
    words, integers = [ctypes.POINTER(word), size], [ctypes.POINTER(integer), size]
    buffer, told = [ctypes.POINTER(ctypes.c_uint8), size], [ctypes.POINTER(ctypes.c_uint64), size]
    record, turn = text + [word] * 4, words + buffer
    takes = {
        "read": record + told, "fetch": record + [word] * 2 + told, "field_of": text + told + [word] * 2 + told,
        "shown": text + [ctypes.c_uint8, size], "tally": record + told, "choose": record + words + buffer,
        "vcf_line": record + (text + words) * 2 + buffer, "first_pair": record,
        "pair": text + [size] + told, "fresh": words, "begin": turn + [word] * 4 + [integer] * 3 + [word],
        "id": turn + text, "allele": turn + text, "filter": turn + integers, "end": turn,
        "info_integers": turn + [integer] + integers, "info_floats": turn + [integer] + words,
        "info_text": turn + [integer] + text, "format_integers": turn + [integer, word] + integers,
        "format_floats": turn + [integer, word] + words, "format_text": turn + [integer, word] + text,
    }
    for name, types in takes.items():
        function = getattr(library, "sikalumdo_" + name)
        function.argtypes, function.restype = types, ctypes.c_uint64
    library.sikalumdo_vcf_pos.argtypes, library.sikalumdo_vcf_pos.restype = [word], integer
    return library


_library = _load()
