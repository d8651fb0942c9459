"""The book and its refusals 1 to 8 (document 01, "The book" and "Refusal numbers").

Each refusal is one question, asked of the whole book before the next one is.
"""

from struct import unpack_from
from typing import NamedTuple

BLOCK_BYTES = 512
RECORDS_START, CHECK_START = 4, 508
SITE_BYTES, SITES_A_BLOCK = 12, 42
RULE_BYTES, RULES_A_BLOCK = 72, 7
MOST_SITES = MOST_RULES = 252
RIGHT_SUM = 0x4C494654

HEAD_BLOCK, SITE_BLOCK, RULE_BLOCK = 1, 2, 3
ARGUMENT, CONST_INT, CONST_PRIM, MATCH_TUPLE = 0, 1, 2, 3
MAKE_VARIANT, MAKE_STRUCT, EXPRESSION, BOUND_BY_PATTERN = 4, 5, 6, 7
IS_INT, IS_PRIM, IS_VARIANT, IS_SOME = 0, 1, 2, 3

# How many sources a site of each kind may have.
SOURCE_COUNTS = {
    ARGUMENT: {0}, CONST_INT: {0}, CONST_PRIM: {0}, MATCH_TUPLE: {1},
    MAKE_VARIANT: {0, 1, 2, 3, 4}, MAKE_STRUCT: {0, 1, 2, 3, 4}, EXPRESSION: {0, 1, 2, 3, 4},
    BOUND_BY_PATTERN: {1},
}
# How many fields a pattern of each kind may have.
FIELD_COUNTS = {IS_INT: {0}, IS_PRIM: {0}, IS_VARIANT: {0, 1, 2, 3, 4}, IS_SOME: {1}}


class Site(NamedTuple):
    kind: int
    sources: tuple = ()
    pattern: int = 0  # kind 7 only: pattern kind, position and number
    position: int = 0
    number: int = 0


class Constraint(NamedTuple):
    site: int
    kind: int
    fields: int
    number: int


class Rule(NamedTuple):
    priority: int
    pos: int
    result: int
    constraints: tuple = ()
    pairs: tuple = ()
    impures: tuple = ()


class Book(NamedTuple):
    sites: tuple
    rules: tuple


def refusal(data):
    """The lowest number that the book is refused with, or None if it is accepted."""
    if len(data) == 0 or len(data) % BLOCK_BYTES != 0:
        return 1
    blocks = [data[at:at + BLOCK_BYTES] for at in range(0, len(data), BLOCK_BYTES)]
    if any(block_sum(block) != RIGHT_SUM for block in blocks):
        return 2
    if frames_are_wrong(blocks):
        return 3
    raw_sites, raw_rules = records(blocks)
    if sites_are_wrong(raw_sites):
        return 4
    if any(rule_is_wrong(raw, len(raw_sites)) for raw in raw_rules):
        return 5
    return refusal_of_tables(book_of(data))


def refusal_of_tables(book):
    """Refusals 6 to 8, which speak of rules and sites as a whole."""
    if has_two_field_counts(book):
        return 6
    if any(constrains_and_pairs(rule) for rule in book.rules):
        return 7
    if any(reaches_unbound(book, rule) for rule in book.rules):
        return 8
    return None


# Blocks: refusals 2 and 3.

def block_sum(block):
    return sum(unpack_from("<128I", block)) % 2**32


def counts_in_head(blocks):
    """S and R."""
    return unpack_from("<HH", blocks[0], RECORDS_START)


def frames(site_count, rule_count):
    """Kind and record count of each block that so many sites and rules need."""
    wanted = [(HEAD_BLOCK, 0)]
    for first in range(0, site_count, SITES_A_BLOCK):
        wanted.append((SITE_BLOCK, min(SITES_A_BLOCK, site_count - first)))
    for first in range(0, rule_count, RULES_A_BLOCK):
        wanted.append((RULE_BLOCK, min(RULES_A_BLOCK, rule_count - first)))
    return wanted


def filler_start(kind, count):
    """Where a block's bytes stop saying anything."""
    if kind == HEAD_BLOCK:
        return RECORDS_START + 4
    return RECORDS_START + count * (SITE_BYTES if kind == SITE_BLOCK else RULE_BYTES)


def frames_are_wrong(blocks):
    site_count, rule_count = counts_in_head(blocks)
    if site_count > MOST_SITES or rule_count > MOST_RULES:
        return True
    wanted = frames(site_count, rule_count)
    if len(blocks) != len(wanted):
        return True
    for number, (block, (kind, count)) in enumerate(zip(blocks, wanted)):
        if unpack_from("<HBB", block) != (number, kind, count):
            return True
        if any(block[filler_start(kind, count):CHECK_START]):
            return True
    return False


def records(blocks):
    """The bytes of every site record and of every rule record."""
    raw_sites, raw_rules = [], []
    for block, (kind, count) in zip(blocks, frames(*counts_in_head(blocks))):
        size, found = (SITE_BYTES, raw_sites) if kind == SITE_BLOCK else (RULE_BYTES, raw_rules)
        for k in range(count):
            found.append(block[RECORDS_START + k * size:RECORDS_START + (k + 1) * size])
    return raw_sites, raw_rules


# Site records: refusal 4.

def sites_are_wrong(raw_sites):
    if any(site_is_wrong(raw, own) for own, raw in enumerate(raw_sites)):
        return True
    bound = [site_of(raw) for raw in raw_sites if raw[0] == BOUND_BY_PATTERN]
    return len(set(bound)) != len(bound)  # two share source, pattern kind, number and position


def site_is_wrong(raw, own):
    if raw[0] not in SOURCE_COUNTS or raw[1] not in SOURCE_COUNTS[raw[0]]:
        return True
    site = site_of(raw)
    if any(source >= own for source in site.sources):
        return True
    if site.kind == BOUND_BY_PATTERN:
        return bound_site_is_wrong(site, raw)
    return any(raw[2 + 2 * len(site.sources):])  # unused sources and the two last bytes


def bound_site_is_wrong(site, raw):
    if site.pattern not in (IS_VARIANT, IS_SOME) or any(raw[10:12]):
        return True
    return site.pattern == IS_SOME and (site.position, site.number) != (0, 0)


def site_of(raw):
    kind, count = raw[0], raw[1]
    if kind == BOUND_BY_PATTERN:
        source, pattern, position, number = unpack_from("<HBBi", raw, 2)
        return Site(kind, (source,), pattern, position, number)
    return Site(kind, unpack_from("<4H", raw, 2)[:count])


# Rule records: refusal 5.

def rule_is_wrong(raw, site_count):
    constraint_count, pair_count, impure_count, zero = raw[10:14]
    if max(constraint_count, pair_count, impure_count) > 4 or zero != 0:
        return True
    unused = (raw[14 + 8 * constraint_count:46], raw[46 + 4 * pair_count:62],
              raw[62 + 2 * impure_count:70], raw[70:72])
    if any(any(part) for part in unused):
        return True
    rule = rule_of(raw)
    if any(site >= site_count for site in sites_named(rule)):
        return True
    if any(constraint_is_wrong(constraint) for constraint in rule.constraints):
        return True
    constrained = [constraint.site for constraint in rule.constraints]
    return len(set(constrained)) != len(constrained) or any(a == b for a, b in rule.pairs)


def constraint_is_wrong(constraint):
    return not pattern_is_right(constraint.kind, constraint.fields, constraint.number)


def pattern_is_right(kind, fields, number):
    """Whether a rule record may hold this pattern."""
    return fields in FIELD_COUNTS.get(kind, ()) and (kind != IS_SOME or number == 0)


def rule_of(raw):
    priority, pos, result, constraints, pairs, impures = unpack_from("<iIHBBB", raw)
    return Rule(
        priority, pos, result,
        tuple(Constraint(*unpack_from("<HBBi", raw, 14 + 8 * k)) for k in range(constraints)),
        tuple(unpack_from("<HH", raw, 46 + 4 * k) for k in range(pairs)),
        tuple(unpack_from("<H", raw, 62 + 2 * k)[0] for k in range(impures)),
    )


def sites_named(rule):
    """Constraint, pair, impure and result sites."""
    yield from (constraint.site for constraint in rule.constraints)
    yield from (site for pair in rule.pairs for site in pair)
    yield from rule.impures
    yield rule.result


# The whole book: refusals 6 to 8.

def has_two_field_counts(book):
    """One site, pattern kind and number with two field counts, in any rules."""
    seen = {constraint for rule in book.rules for constraint in rule.constraints}
    return len({(c.site, c.kind, c.number) for c in seen}) != len(seen)


def constrains_and_pairs(rule):
    constrained = {constraint.site for constraint in rule.constraints}
    return any(a in constrained or b in constrained for a, b in rule.pairs)


def reaches_unbound(book, rule):
    """A kind 7 site within reach that the rule's own constraints do not bind."""
    return any(
        book.sites[site].kind == BOUND_BY_PATTERN and not binds(rule, book.sites[site])
        for site in reached(book, rule)
    )


def reached(book, rule):
    """Every site that the rule names, and through sources every site below those."""
    found, to_visit = set(), list(sites_named(rule))
    while to_visit:
        site = to_visit.pop()
        if site not in found:
            found.add(site)
            to_visit.extend(book.sites[site].sources)
    return found


def binds(rule, site):
    """The rule constrains the kind 7 site's source with its kind and number, and has the position."""
    return any(
        constraint.site == site.sources[0]
        and (constraint.kind, constraint.number) == (site.pattern, site.number)
        and site.position < constraint.fields
        for constraint in rule.constraints
    )


def book_of(data):
    """The sites and rules of a book that refusals 1 to 5 leave alone."""
    blocks = [data[at:at + BLOCK_BYTES] for at in range(0, len(data), BLOCK_BYTES)]
    raw_sites, raw_rules = records(blocks)
    return Book(tuple(map(site_of, raw_sites)), tuple(map(rule_of, raw_rules)))
