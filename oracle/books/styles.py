"""Random accepted books in many styles. A style is a row of chances; one way of growing serves all."""

from dataclasses import dataclass, replace

from judge.book import (
    ARGUMENT, BOUND_BY_PATTERN, EXPRESSION, IS_INT, IS_SOME, IS_VARIANT, MATCH_TUPLE, MOST_RULES,
    MOST_SITES, SOURCE_COUNTS, Book, Constraint, Rule, Site,
)

from . import tiny
from .grow import Desk, some_number

LIMITS = (-2**31, -2**31 + 1, -400, -1, 0, 1, 85, 2**31 - 2, 2**31 - 1)
TENTHS = tuple(range(-400, 900, 65))
# A site record may give any position; one that no field count exceeds is bound by no rule.
POSITIONS = (0,) * 10 + (1,) * 6 + (2,) * 3 + (3,) * 3 + (4, 255)


@dataclass(frozen=True)
class Style:
    """Bags to draw from. `hot`: sites that tests are drawn from (0: all); `recent`: how far back
    sources lie (0: anywhere); `nested`: chance that a kind 7 site hangs on another; `kin`: chance
    that a rule starts as a copy of an earlier one; `bare`: chance that a book's rules without any
    test stand as they came, and so may leave all rules below them dead."""
    sites: tuple = (3, 14)
    rules: tuple = (1, 14)
    kinds: tuple = (0, 0, 0, 1, 2, 3, 4, 5, 6, 6, 7, 7, 7)
    patterns: tuple = (0, 1, 2, 2, 2, 3)
    numbers: tuple = (0, 1, 2)
    priorities: tuple = (0, 1, 2, 3)
    constraints: tuple = (0, 1, 1, 2, 2, 3, 4)
    pairs: tuple = (0, 0, 0, 1, 1, 2)
    impures: tuple = (0, 0, 0, 1)
    hot: int = 0
    recent: int = 0
    nested: float = 0.3
    kin: float = 0.3
    bare: float = 0.2


MIXED = Style()
STYLES = {
    "mixed": MIXED,
    "sparse": Style(sites=(20, 60), rules=(4, 40), constraints=(0, 1, 1, 1, 2), pairs=(0, 0, 0, 1),
                    priorities=tuple(range(-3, 9)), kin=0.1),
    "dense": Style(sites=(3, 8), rules=(8, 40), numbers=(0, 1), constraints=(1, 2, 2, 3, 3, 4),
                   pairs=(0, 0, 0, 0, 1), kin=0.6, hot=5),
    "pair-heavy": Style(sites=(8, 40), rules=(4, 24), constraints=(0, 0, 1), pairs=(1, 2, 3, 4, 4)),
    "pairs-few-sites": Style(sites=(3, 6), rules=(4, 20), kinds=(0, 0, 0, 6, 6, 7),
                             constraints=(0, 0, 0, 1), pairs=(0, 1, 2, 3, 4), impures=(0,)),
    "nested-seven": Style(sites=(5, 24), rules=(3, 18), kinds=(0, 3, 6, 6, 7, 7, 7, 7),
                          numbers=(0, 1), patterns=(2, 2, 3), nested=0.7, kin=0.5),
    "deep-sources": Style(sites=(10, 60), rules=(2, 14), kinds=(0, 1, 3, 4, 5, 6, 6, 6, 6, 7),
                          recent=4, constraints=(0, 1, 1, 2), impures=(0, 1, 2)),
    "impure": Style(impures=(0, 1, 2, 3, 4, 4), constraints=(0, 1, 2)),
    "empty-variants": Style(kinds=(0, 4, 4, 5, 5, 6, 7), patterns=(2,), numbers=(0, 1, 2, 3, 4, 5)),
    "equal-priorities": Style(priorities=(7,), kin=0.5),
    "dead-rules": Style(sites=(3, 10), rules=(2, 12), kinds=(0, 0, 6, 7, 7),
                        constraints=(0, 0, 1, 1, 2, 2), priorities=tuple(range(6)), kin=0.2,
                        bare=1.0),
    "limits": Style(numbers=LIMITS, priorities=LIMITS, patterns=(0, 0, 1, 1, 2, 3), hot=3,
                    rules=(2, 20)),
    "tenths": Style(numbers=TENTHS, patterns=(0, 0, 0, 1), hot=4, priorities=(0, 5, 10),
                    rules=(3, 24), pairs=(0, 0, 0, 1)),
}

FULL = {"sites": (MOST_SITES, MOST_SITES), "rules": (MOST_RULES, MOST_RULES)}
FULL_STYLES = ("sparse", "dense", "pair-heavy", "nested-seven", "deep-sources", "equal-priorities",
               "limits", "dead-rules")


def grow_book(style, rng):
    desk = Desk(rng)
    style = replace(style, bare=float(rng.random() < style.bare))
    site_count = rng.randint(*style.sites)
    while len(desk.sites) < site_count:
        desk.add_site(grow_site(desk, style))
    for _ in range(rng.randint(*style.rules)):
        desk.rules.append(grow_rule(desk, style))
    return desk.book()


def full_book(rng):
    """252 sites and 252 rules, in one of several styles."""
    style = STYLES[rng.choice(FULL_STYLES)]
    return grow_book(replace(style, hot=rng.choice((0, 6, 40)), **FULL), rng)


def one_sided_book(rng):
    """252 sites or 252 rules beside few of the other, or no rules at all."""
    sides = (dict(sites=(252, 252), rules=(1, 6)), dict(sites=(2, 9), rules=(252, 252)),
             dict(sites=(0, 90), rules=(0, 0)), dict(sites=(42, 42), rules=(7, 7)),
             dict(sites=(84, 84), rules=(14, 14)), dict(sites=(43, 43), rules=(8, 8)))
    return grow_book(replace(MIXED, **rng.choice(sides)), rng)


def long_lets_book(rng):
    """Long let lists in every arm: a tree that 16,384 words may not hold."""
    chain = [Site(ARGUMENT)] + [Site(EXPRESSION, (k,)) for k in range(rng.randint(40, 251))]
    result = len(chain) - 1
    rules = [Rule(0, k, result, (Constraint(0, IS_INT, 0, k),)) for k in range(rng.randint(40, 252))]
    return Book(tuple(chain), tuple(rules))


# Sites

def grow_site(desk, style):
    kind = desk.rng.choice(style.kinds)
    if not desk.sites:
        return Site(ARGUMENT if kind in (MATCH_TUPLE, BOUND_BY_PATTERN) else kind)
    if kind == BOUND_BY_PATTERN:
        return grow_bound_site(desk, style)
    count = desk.rng.choice(sorted(SOURCE_COUNTS[kind]))
    return Site(kind, tuple(some_source(desk, style) for _ in range(count)))


def grow_bound_site(desk, style):
    rng = desk.rng
    bound = [k for k, site in enumerate(desk.sites) if site.kind == BOUND_BY_PATTERN]
    nests = bound and rng.random() < style.nested
    source = rng.choice(bound) if nests else some_source(desk, style)
    pattern = rng.choice([kind for kind in style.patterns if kind in (IS_VARIANT, IS_SOME)] or [2])
    position = 0 if pattern == IS_SOME else rng.choice(POSITIONS)
    number = some_number(pattern, rng.choice(style.numbers))
    return Site(BOUND_BY_PATTERN, (source,), pattern, position, number)


def some_source(desk, style):
    last = len(desk.sites) - 1
    first = max(0, last - style.recent) if style.recent else 0
    return desk.rng.randint(first, last)


# Rules

def grow_rule(desk, style):
    rng = desk.rng
    priority, pos = rng.choice(style.priorities), some_pos(rng)
    if desk.rules and rng.random() < style.kin:
        rule = kin_of(desk, priority, pos)
    else:
        rule = Rule(priority, pos, 0)
    for _ in range(rng.choice(style.constraints) - len(rule.constraints)):
        rule = desk.grown(rule, constraints=[some_constraint(desk, style)])
    for _ in range(rng.choice(style.pairs) - len(rule.pairs)):
        a, b = tested_site(desk, style), tested_site(desk, style)
        rule = desk.grown(rule, pairs=[(a, b)] if a != b else [])
    if not rule.constraints and not rule.pairs and rng.random() >= style.bare:
        rule = dressed(desk, style, rule)
    for _ in range(rng.choice(style.impures)):
        rule = desk.grown(rule, impures=[any_site(desk)])
    rule = desk.grown(rule, result=any_site(desk))
    return rule._replace(constraints=shuffled(rng, rule.constraints))


def dressed(desk, style, rule):
    """A rule without a test gets one, or becomes the desk's catch-all of lowest priority."""
    if desk.rng.random() < 0.2:
        return rule._replace(priority=min(style.priorities))
    return desk.grown(rule, constraints=[some_constraint(desk, style)])


def kin_of(desk, priority, pos):
    """An earlier rule with one constraint or pair less, or as it is, under another priority."""
    rng = desk.rng
    elder = rng.choice(desk.rules)
    constraints, pairs = without_one(rng, elder.constraints), without_one(rng, elder.pairs)
    fresh = Rule(priority, pos, 0)
    return desk.grown(fresh, constraints=constraints, pairs=pairs)


def without_one(rng, things):
    gone = rng.randrange(len(things) + 1)
    return things[:gone] + things[gone + 1:]


def some_constraint(desk, style):
    """Often a pattern that the book has on that site already, so that rules share arms."""
    rng = desk.rng
    site = tested_site(desk, style)
    known = [(b.pattern, b.number) for b in desk.bound_on(site)]
    if rng.random() < 0.5:
        known += [(kind, number) for s, kind, number in desk.fields if s == site]
    if known and rng.random() < 0.7:
        return desk.constraint(site, *rng.choice(known))
    kind = rng.choice(style.patterns)
    return desk.constraint(site, kind, some_number(kind, rng.choice(style.numbers)))


def tested_site(desk, style):
    count = len(desk.sites)
    return desk.rng.randrange(min(style.hot, count) if style.hot else count)


def any_site(desk):
    return desk.rng.randrange(len(desk.sites))


def some_pos(rng):
    return rng.choice((rng.randrange(1000), rng.randrange(1000), rng.randrange(2**32), 2**32 - 1))


def shuffled(rng, things):
    things = list(things)
    rng.shuffle(things)
    return tuple(things)


def maker(style):
    return lambda rng: grow_book(style, rng)


# Every style by name: a function from a source of chance to an accepted book.
MAKERS = {name: maker(style) for name, style in STYLES.items()}
MAKERS["tiny"] = tiny.some_book
MAKERS["one-sided"] = one_sided_book
MAKERS["long-lets"] = long_lets_book
MAKERS["full"] = full_book
