"""A book as bytes: blocks of 512 with their checks, and where each record stands in them."""

from struct import pack, pack_into, unpack_from

from judge.book import (
    BLOCK_BYTES, BOUND_BY_PATTERN, CHECK_START, HEAD_BLOCK, RECORDS_START, RIGHT_SUM, RULE_BLOCK,
    RULE_BYTES, RULES_A_BLOCK, SITE_BLOCK, SITE_BYTES, SITES_A_BLOCK,
)


def bytes_of(book):
    """The blocks of a book: head, sites, rules."""
    head = pack("<HH", len(book.sites), len(book.rules))
    parts = [(HEAD_BLOCK, 0, head)]
    parts += parts_of(SITE_BLOCK, SITES_A_BLOCK, [site_bytes(site) for site in book.sites])
    parts += parts_of(RULE_BLOCK, RULES_A_BLOCK, [rule_bytes(rule) for rule in book.rules])
    return b"".join(block(number, *part) for number, part in enumerate(parts))


def parts_of(kind, a_block, records):
    groups = [records[k:k + a_block] for k in range(0, len(records), a_block)]
    return [(kind, len(group), b"".join(group)) for group in groups]


def block(number, kind, count, content):
    raw = bytearray(pack("<HBB", number, kind, count) + content)
    raw += bytes(BLOCK_BYTES - len(raw))
    return bytes(mended(raw))


def mended(data):
    """Whole blocks with every check made right."""
    data = bytearray(data)
    for at in range(0, len(data), BLOCK_BYTES):
        words = unpack_from("<127I", data, at)
        pack_into("<I", data, at + CHECK_START, (RIGHT_SUM - sum(words)) % 2**32)
    return bytes(data)


def site_bytes(site):
    if site.kind == BOUND_BY_PATTERN:
        parts = (site.kind, 1, site.sources[0], site.pattern, site.position, site.number, 0)
        return pack("<BBHBBiH", *parts)
    sources = site.sources + (0,) * (4 - len(site.sources))
    return pack("<BB4HH", site.kind, len(site.sources), *sources, 0)


def rule_bytes(rule):
    counts = (len(rule.constraints), len(rule.pairs), len(rule.impures), 0)
    raw = pack("<iIHBBBB", rule.priority, rule.pos, rule.result, *counts)
    raw += b"".join(pack("<HBBi", *constraint) for constraint in rule.constraints).ljust(32, b"\0")
    raw += b"".join(pack("<HH", *pair) for pair in rule.pairs).ljust(16, b"\0")
    raw += b"".join(pack("<H", site) for site in rule.impures).ljust(8, b"\0")
    return raw + bytes(2)


def site_at(k):
    """The first byte of site record k."""
    block_number = 1 + k // SITES_A_BLOCK
    return BLOCK_BYTES * block_number + RECORDS_START + SITE_BYTES * (k % SITES_A_BLOCK)


def rule_at(k, site_count):
    """The first byte of rule record k, behind so many sites."""
    block_number = 1 + -(-site_count // SITES_A_BLOCK) + k // RULES_A_BLOCK
    return BLOCK_BYTES * block_number + RECORDS_START + RULE_BYTES * (k % RULES_A_BLOCK)
