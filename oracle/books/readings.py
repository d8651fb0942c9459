"""Readings of a book's sites, made so that rules match, nearly match or do not."""

from judge.walk import Reading

IDENTITIES = (0, 1, 2, 3, 2**31, 2**32 - 1)


def some_reading(book, rng):
    """A reading of every site that suits one to three of the rules as far as they agree."""
    patterns = asked_patterns(book)
    kinds, numbers = [], []
    keen = rng.choice((0.2, 0.6, 1.0))  # how often a site shows a pattern that some rule asks for
    for site in range(len(book.sites)):
        anything = [(rng.randrange(5), rng.randrange(-1, 3))]
        wanted = patterns.get(site, anything) if rng.random() < keen else anything
        kind, number = rng.choice(wanted)
        kinds.append(kind)
        numbers.append(number)
    identities = [rng.choice(IDENTITIES) for _ in book.sites]
    for rule in rng.sample(book.rules, min(len(book.rules), rng.choice((0, 0, 1, 1, 2, 3)))):
        suit(rule, kinds, numbers, identities)
    if book.sites and rng.random() < 0.3:
        spoil(rng, kinds, numbers, identities)
    return Reading(tuple(kinds), tuple(numbers), tuple(identities))


def asked_patterns(book):
    """For each site the patterns that some rule asks of it."""
    found = {}
    for rule in book.rules:
        for constraint in rule.constraints:
            found.setdefault(constraint.site, []).append((constraint.kind, constraint.number))
    return found


def suit(rule, kinds, numbers, identities):
    """Makes the rule match."""
    for constraint in rule.constraints:
        kinds[constraint.site], numbers[constraint.site] = constraint.kind, constraint.number
    for _ in rule.pairs:  # as often as a value may have to travel along the pairs
        for a, b in rule.pairs:
            identities[a] = identities[b] = max(identities[a], identities[b])


def spoil(rng, kinds, numbers, identities):
    """Changes one thing at one site, so that a rule may just fail."""
    site = rng.randrange(len(kinds))
    what = rng.randrange(3)
    if what == 0:
        kinds[site] = rng.choice((0, 1, 2, 3, 4, 255))
    elif what == 1:
        numbers[site] = rng.choice((-2**31, -1, 0, 1, 2, 2**31 - 1))
    else:
        identities[site] = rng.choice(IDENTITIES)


def longer(reading, rng):
    """More sites than the book has."""
    more = rng.randint(1, 300)
    return Reading(reading.kinds + (2,) * more, reading.numbers + (1,) * more,
                   reading.identities + (0,) * more)


def shorter(reading, rng):
    """Some of the last sites are missing."""
    left = rng.randrange(len(reading.kinds) + 1)
    return Reading(*(part[:left] for part in reading))


def lopsided(reading, rng):
    """One of the three lists is longer or shorter than the others."""
    parts = list(reading)
    which = rng.randrange(3)
    if parts[which] and rng.random() < 0.5:
        parts[which] = parts[which][:-1]
    else:
        parts[which] += (0,)
    return Reading(*parts)
