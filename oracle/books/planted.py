"""One fault planted in an accepted book, in every field of every block and record (1 to 5).

Each function yields the faults of one refusal number as (label, make): `make()` gives the bytes,
for there are many faults and mostly one is drawn. Sums are mended, so that the fault planted is the
only one; faults of rules and tables (6 to 8) are in planted_tables.
"""

from struct import pack

from judge.book import (
    BLOCK_BYTES, BOUND_BY_PATTERN, CHECK_START, IS_INT, IS_PRIM, IS_SOME, IS_VARIANT, MOST_RULES,
    MOST_SITES, RULE_BYTES, SITE_BYTES, SOURCE_COUNTS, filler_start, frames,
)

from .write import block, bytes_of, mended, rule_at, site_at, site_bytes


def put(data, at, new):
    """Makes the bytes with others from there on, sums mended."""
    return lambda: mended(changed(data, at, new))


def changed(data, at, new):
    return data[:at] + bytes(new) + data[at + len(new):]


def ready(data):
    return lambda: data


def other_bytes(old, *news):
    return [bytes([new]) for new in news if new != old]


def faults_1(book):
    data = bytes_of(book)
    yield "empty", ready(b"")
    yield "one byte short", ready(data[:-1])
    yield "one byte long", ready(data + b"\0")
    yield "half a block", ready(data[:-BLOCK_BYTES // 2])


def faults_2(book):
    """Every byte changed, and no sum mended."""
    data = bytes_of(book)
    for at in range(len(data)):
        yield f"byte {at}", one_bit_off(data, at)


def one_bit_off(data, at):
    return lambda: changed(data, at, [data[at] ^ 1 << at % 8])


def faults_3(book):
    yield from faults_in_frames(book)
    yield from faults_of_blocks(bytes_of(book))


def faults_in_frames(book):
    """Every byte outside the records."""
    data = bytes_of(book)
    yield from head_faults(book, data)
    for number, (kind, count) in enumerate(frames(len(book.sites), len(book.rules))):
        start = BLOCK_BYTES * number
        yield from frame_faults(data, start, number)
        for at in range(start + filler_start(kind, count), start + CHECK_START):
            yield f"filler byte {at}", put(data, at, b"\x01")


def faults_of_blocks(data):
    """A block missing, too many, or in the wrong place."""
    if len(data) > BLOCK_BYTES:
        first, second = data[:BLOCK_BYTES], data[BLOCK_BYTES:2 * BLOCK_BYTES]
        yield "last block missing", ready(data[:-BLOCK_BYTES])
        yield "two blocks exchanged", ready(second + first + data[2 * BLOCK_BYTES:])
    yield "one block more", ready(data + block(len(data) // BLOCK_BYTES, 3, 0, b""))


def head_faults(book, data):
    for at, count, most in ((4, len(book.sites), MOST_SITES), (6, len(book.rules), MOST_RULES)):
        for wrong in {most + 1, 65535, count + 1, count - 1, count + 256} - {count, -1}:
            yield f"head count at {at} is {wrong}", put(data, at, pack("<H", wrong))


def frame_faults(data, start, number):
    """Number, kind and count of one block."""
    for wrong in other_bytes(data[start], number + 1, 255):
        yield f"block {number} low number", put(data, start, wrong)
    yield f"block {number} high number", put(data, start + 1, b"\x01")
    for wrong in other_bytes(data[start + 2], 0, 1, 2, 3, 4, 255):
        yield f"block {number} kind", put(data, start + 2, wrong)
    count = data[start + 3]
    for wrong in other_bytes(count, max(count - 1, 0), count + 1, 0, 43, 255):
        yield f"block {number} count", put(data, start + 3, wrong)


def faults_4(book):
    data = bytes_of(book)
    for own, site in enumerate(book.sites):
        for label, record in wrong_sites(own, site):
            yield f"site {own} {label}", put(data, site_at(own), record)
        for other in range(own):
            if site.kind == book.sites[other].kind == BOUND_BY_PATTERN:
                again = site_bytes(book.sites[other])
                yield f"site {own} is site {other} again", put(data, site_at(own), again)


def wrong_sites(own, site):
    """Records of a site that break one rule each."""
    record = site_bytes(site)
    for kind in (8, 9, 255):
        yield f"kind {kind}", bytes([kind]) + record[1:]
    for count in {0, 1, 2, 3, 4, 5, 255} - SOURCE_COUNTS[site.kind]:
        yield f"source count {count}", record[:1] + bytes([count]) + record[2:]
    for k in range(len(site.sources)):
        for source in {own, own + 1, 65535}:
            yield f"source {k} is {source}", changed(record, 2 + 2 * k, pack("<H", source))
    if site.kind == BOUND_BY_PATTERN:
        yield from wrong_bound_sites(site, record)
    else:
        for at in range(2 + 2 * len(site.sources), SITE_BYTES):
            yield f"unused byte {at}", changed(record, at, b"\x01")


def wrong_bound_sites(site, record):
    for kind in (0, 1, 4, 255):
        yield f"pattern kind {kind}", changed(record, 4, [kind])
    for at in (10, 11):
        yield f"unused byte {at}", changed(record, at, b"\x01")
    if site.pattern == IS_SOME:
        yield "position of Some", changed(record, 5, b"\x01")
        for number in (1, -1, 2**31 - 1):
            yield f"number {number} of Some", changed(record, 6, pack("<i", number))


def faults_5(book):
    data = bytes_of(book)
    for k, rule in enumerate(book.rules):
        at = rule_at(k, len(book.sites))
        record = data[at:at + RULE_BYTES]
        for label, wrong in wrong_rules(rule, record, len(book.sites)):
            yield f"rule {k} {label}", put(data, at, wrong)


def wrong_rules(rule, record, site_count):
    """Records of a rule that break one rule each."""
    yield from wrong_counts(rule, record)
    used = (14 + 8 * len(rule.constraints), 46 + 4 * len(rule.pairs), 62 + 2 * len(rule.impures))
    for first, end in zip(used, (46, 62, 70)):
        for at in range(first, end):
            yield f"unused byte {at}", changed(record, at, b"\x01")
    for at in (13, 70, 71):
        yield f"zero byte {at}", changed(record, at, b"\x01")
    for at in places_of_ids(rule):
        for site in {site_count, 65535}:
            yield f"id at {at} is {site}", changed(record, at, pack("<H", site))
    for k, constraint in enumerate(rule.constraints):
        yield from wrong_patterns(constraint, record, 14 + 8 * k)
    for k, (a, b) in enumerate(rule.pairs):
        yield f"pair {k} of one site", changed(record, 46 + 4 * k, pack("<HH", b, b))
    for k in range(1, len(rule.constraints)):
        first = pack("<H", rule.constraints[0].site)
        yield f"constraint {k} on the first one's site", changed(record, 14 + 8 * k, first)


def wrong_counts(rule, record):
    """Counts above 4, and counts that leave something behind the last one."""
    for at in (10, 11, 12):
        for count in (5, 6, 255):
            yield f"count at {at} is {count}", changed(record, at, [count])
    lists = ((10, 14, 8, rule.constraints), (11, 46, 4, rule.pairs), (12, 62, 2, rule.impures))
    for at, start, size, things in lists:
        last = start + size * (len(things) - 1)
        if things and any(record[last:last + size]):
            yield f"count at {at} leaves one out", changed(record, at, [len(things) - 1])


def places_of_ids(rule):
    yield 8
    yield from (14 + 8 * k for k in range(len(rule.constraints)))
    yield from (46 + 2 * k for k in range(2 * len(rule.pairs)))
    yield from (62 + 2 * k for k in range(len(rule.impures)))


def wrong_patterns(constraint, record, at):
    for kind in (4, 5, 255):
        yield f"pattern kind {kind} at {at}", changed(record, at + 2, [kind])
    wrong_fields = {IS_INT: (1, 4, 255), IS_PRIM: (1, 4, 255), IS_VARIANT: (5, 255),
                    IS_SOME: (0, 2, 255)}
    for fields in wrong_fields[constraint.kind]:
        yield f"field count {fields} at {at}", changed(record, at + 3, [fields])
    if constraint.kind == IS_SOME:
        for number in (1, -1):
            yield f"number {number} of Some at {at}", changed(record, at + 4, pack("<i", number))
