"""Tiny books, all of them: one and two rules over a few site tables."""

from itertools import combinations, product

from judge.book import (
    ARGUMENT, BOUND_BY_PATTERN, CONST_INT, EXPRESSION, IS_INT, IS_PRIM, IS_SOME, IS_VARIANT,
    MAKE_STRUCT, MAKE_VARIANT, MATCH_TUPLE, Book, Constraint, Rule, Site, refusal_of_tables,
)


def bound(source, pattern, number=0, position=0):
    return Site(BOUND_BY_PATTERN, (source,), pattern, position, number)


# The site tables, and the patterns that may be asked of each site beside none at all.
TABLES = {
    "arguments": (
        (Site(ARGUMENT), Site(ARGUMENT), Site(CONST_INT)),
        {0: ((IS_VARIANT, 0, 1), (IS_INT, 0, -1)), 1: ((IS_VARIANT, 0, 1), (IS_SOME, 1, 0))},
    ),
    "bound": (
        (Site(ARGUMENT), bound(0, IS_VARIANT, 1), bound(0, IS_VARIANT, 1, 1)),
        {0: ((IS_VARIANT, 2, 1), (IS_VARIANT, 1, -1)), 1: ((IS_INT, 0, 3),)},
    ),
    "chain": (
        (Site(ARGUMENT), bound(0, IS_SOME), bound(1, IS_VARIANT, 2), Site(EXPRESSION, (2, 0))),
        {0: ((IS_SOME, 1, 0),), 1: ((IS_VARIANT, 1, 2),), 2: ((IS_INT, 0, 0),)},
    ),
    "expressions": (
        (Site(ARGUMENT), Site(EXPRESSION, (0,)), Site(EXPRESSION, (1, 0)), Site(MAKE_VARIANT)),
        {1: ((IS_INT, 0, 7),), 2: ((IS_INT, 0, 7), (IS_INT, 0, -400))},
    ),
    "tuple-of-bound": (
        (Site(ARGUMENT), bound(0, IS_SOME), Site(MATCH_TUPLE, (1,)), Site(MAKE_VARIANT, (2,))),
        {0: ((IS_SOME, 1, 0), (IS_INT, 0, 0)), 2: ((IS_INT, 0, 1),)},
    ),
    "two-variants": (
        (Site(ARGUMENT), bound(0, IS_VARIANT, 1), bound(0, IS_VARIANT, 2), Site(EXPRESSION, (1,))),
        {0: ((IS_VARIANT, 1, 1), (IS_VARIANT, 2, 2)), 1: ((IS_SOME, 1, 0),), 3: ((IS_INT, 0, 1),)},
    ),
    "all-kinds-on-one-site": (
        (Site(ARGUMENT), Site(EXPRESSION), Site(MAKE_STRUCT, (1,))),
        {0: ((IS_SOME, 1, 0), (IS_VARIANT, 4, -1), (IS_PRIM, 0, 5), (IS_INT, 0, 9)),
         2: ((IS_VARIANT, 3, 0), (IS_INT, 0, -2**31))},
    ),
    "four-to-pair": (
        (Site(ARGUMENT), Site(ARGUMENT), Site(EXPRESSION, (0, 1)), Site(EXPRESSION, (2,))),
        {0: ((IS_INT, 0, 0),), 3: ((IS_INT, 0, 0),)},
    ),
}


def constraint_choices(patterns):
    """Every way to ask at most one pattern of each site."""
    a_site = [[None] + [Constraint(site, *pattern) for pattern in patterns[site]]
              for site in sorted(patterns)]
    return [tuple(c for c in chosen if c is not None) for chosen in product(*a_site)]


def pair_choices(site_count):
    """No pair, one pair, or two pairs that share a site."""
    single = list(combinations(range(site_count), 2))
    double = [(x, y) for x, y in combinations(single, 2) if set(x) & set(y)]
    return [()] + [(pair,) for pair in single] + double


def accepted(sites, rules):
    return [rule for rule in rules if refusal_of_tables(Book(sites, (rule,))) is None]


def rules_of(sites, patterns, results, impures):
    """Every accepted rule over the table, with one of these results and impure lists."""
    choices = product(constraint_choices(patterns), pair_choices(len(sites)), impures, results)
    return accepted(sites, [Rule(0, 1, result, asked, pairs, impure)
                            for asked, pairs, impure, result in choices])


def one_rule_books(sites, patterns):
    ids = range(len(sites))
    impures = [()] + [(site,) for site in ids]
    return [Book(sites, (rule,)) for rule in rules_of(sites, patterns, ids, impures)]


def two_rule_books(sites, patterns):
    """Every two rules, the first ranking above, level with or below the second."""
    rules = [rule._replace(result=last_result(sites, rule))
             for rule in rules_of(sites, patterns, [0], [()])]
    return [Book(sites, (first._replace(priority=p), second._replace(priority=1, pos=2)))
            for first, second in product(rules, rules) for p in (0, 1, 2)]


def last_result(sites, rule):
    """The highest site that the rule may return."""
    for site in reversed(range(len(sites))):
        if accepted(sites, [rule._replace(result=site)]):
            return site
    return 0


def all_books():
    for sites, patterns in TABLES.values():
        yield from one_rule_books(sites, patterns)
        yield from two_rule_books(sites, patterns)


KEPT = []


def some_book(rng):
    """One of them."""
    if not KEPT:
        KEPT.extend(all_books())
    return rng.choice(KEPT)
