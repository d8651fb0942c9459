"""Refused books: one fault of a known number, two faults at once, and single bytes changed."""

from typing import NamedTuple

from judge.book import BLOCK_BYTES, CHECK_START, RULE_BLOCK, RULE_BYTES

from . import planted, planted_tables
from .write import block, bytes_of, mended


class Refused(NamedTuple):
    label: str
    number: object  # the refusal, or None where only a judge can tell
    data: bytes


def of_tables(faults):
    """Faults given as books, in the form of those given as bytes."""
    return lambda book: ((label, lambda wrong=wrong: bytes_of(wrong)) for label, wrong in faults(book))


FAULTS = {
    1: planted.faults_1, 2: planted.faults_2, 3: planted.faults_3, 4: planted.faults_4,
    5: planted.faults_5, 6: of_tables(planted_tables.faults_6),
    7: of_tables(planted_tables.faults_7), 8: of_tables(planted_tables.faults_8),
}
# Faults that keep the length, and that no fault in another record can hide.
STEADY = {
    3: planted.faults_in_frames, 4: planted.faults_4, 5: planted.faults_5, 6: FAULTS[6],
    7: FAULTS[7], 8: of_tables(planted_tables.new_reaches),
}


def every_fault(book):
    """Every fault that can be planted in the book."""
    for number, faults in FAULTS.items():
        yield from (Refused(label, number, make()) for label, make in faults(book))


def one_fault(book, rng, faults=FAULTS):
    """One fault; its number is drawn first, so that the many single bytes do not crowd out others."""
    for number in rng.sample(sorted(faults), len(faults)):
        found = list(faults[number](book))
        if found:
            label, make = rng.choice(found)
            return Refused(label, number, make())


def two_faults(book, rng):
    """Two faults in different records: the lower number wins."""
    base = bytes_of(book)
    first, second = one_fault(book, rng, STEADY), one_fault(book, rng, STEADY)
    if regions(base, first.data) & regions(base, second.data):
        return first
    both = bytearray(first.data)
    for at in range(len(base)):
        if second.data[at] != base[at]:
            both[at] = second.data[at]
    data = mended(both)
    if rng.random() < 0.2:
        return broken_sum(f"{first.label} / ", data, rng)
    return Refused(f"{first.label} / {second.label}", min(first.number, second.number), data)


def regions(base, data):
    """The records and frames that a fault touches, checks left aside."""
    return {region(at) for at in range(len(base)) if data[at] != base[at]} - {None}


def region(at):
    """A rule record, or the six site records at the same place: that is fine enough."""
    block, inside = divmod(at, BLOCK_BYTES)
    if inside >= CHECK_START:
        return None
    return (block, 0) if inside < 4 else (block, (inside - 4) // RULE_BYTES)


def broken_sum(label, data, rng):
    """One bit changed and no sum mended, whatever else is wrong."""
    at = rng.randrange(len(data))
    changed = data[:at] + bytes([data[at] ^ 1 << rng.randrange(8)]) + data[at + 1:]
    return Refused(f"{label}a bit of byte {at}", 2, changed)


def byte_changed(book, rng):
    """One byte changed and no sum mended."""
    return broken_sum("", bytes_of(book), rng)


def byte_changed_mended(book, rng):
    """One byte changed and the sum mended: refused or not, as it may be."""
    data = bytes_of(book)
    content = [at for at in range(len(data)) if at % BLOCK_BYTES < CHECK_START]
    used = [at for at in content if data[at]]
    at = rng.choice(rng.choice((content, used or content)))
    new = rng.choice((0, 1, 2, 3, 4, 5, 7, 255, data[at] ^ 1 << rng.randrange(8)))
    return Refused(f"byte {at} is {new}", None, mended(data[:at] + bytes([new]) + data[at + 1:]))


def many_blocks(book, rng):
    """Blocks behind the last one, up to about as many as the program reads."""
    data = bytes_of(book)
    count = rng.choice((127, 128, 129))
    more = (block(number, RULE_BLOCK, 0, b"") for number in range(len(data) // BLOCK_BYTES, count))
    return Refused(f"{count} blocks", 3, data + b"".join(more))


# Ways to spoil a book, by name.
SPOILERS = {
    "one-fault": one_fault, "two-faults": two_faults, "byte-changed": byte_changed,
    "byte-changed-mended": byte_changed_mended, "many-blocks": many_blocks,
}
