"""Tallies the records on standard input and prints, for each, how often each of its alleles is called.

The input is that of bcflines: a first line of 32 hexadecimal digits with the facts, then one record a line.

    $ python3 bindings/python/example_tally.py < samples/two-people.hex
    2 people, 0 without a genotype, 0 missing alleles: G 2, A 1

A record that the library refuses prints the refusal, and the status is then 1.
"""
import sys

import sikalumdo


def facts_of(line):
    """The Facts on a line: strings, contigs, people and GT offset, eight digits each, high digit first."""
    digits = line.strip()
    if len(digits) != 32:
        raise ValueError("the first line has to have 32 digits")
    return sikalumdo.Facts(*(int(digits[at:at + 8], 16) for at in range(0, 32, 8)))


def sentence(data, facts):
    """The counts of a record, as a line of text."""
    record = sikalumdo.read(data, facts)
    told = sikalumdo.tally(data, facts)
    calls = []
    for number, count in enumerate(told.calls):
        text = record.fetch(sikalumdo.ALLELE, number).part
        calls.append(f"{text.decode('ascii')} {count}")
    return f"{told.people} people, {told.without} without a genotype, {told.missing} missing alleles: {', '.join(calls)}"


def main():
    """Answers the exit status."""
    facts = facts_of(sys.stdin.readline())
    status = 0
    for line in sys.stdin:
        try:
            print(sentence(bytes.fromhex(line), facts))
        except sikalumdo.Refusal as refusal:
            print("refused:", refusal)
            status = 1
    return status


if __name__ == "__main__":
    sys.exit(main())
