"""The tree of an accepted book (document 01, "Sites and let lists" and "How a block is made").

Plain sets and brute force: every open test is tried against every rule of the block.
"""

from itertools import combinations
from typing import NamedTuple

from .book import ARGUMENT, BOUND_BY_PATTERN, CONST_INT, CONST_PRIM, MATCH_TUPLE
from .book import MAKE_STRUCT, MAKE_VARIANT

UNAVAILABLE, AVAILABLE, EMITTED, MATCHED = 0, 1, 2, 3
EMPTY = 65535  # a place that no site has
LOWEST = -2**31  # no priority is below it


class Step(NamedTuple):
    lets: tuple
    flow: object  # Match, Equal or Return


class Match(NamedTuple):
    source: int
    arms: tuple


class Arm(NamedTuple):
    kind: int
    fields: int
    number: int
    places: tuple
    block: tuple  # of steps


class Equal(NamedTuple):
    a: int
    b: int
    block: tuple


class Return(NamedTuple):
    rule: int
    pos: int
    result: int


class OnSite(NamedTuple):
    """A test: what a site's pattern is."""
    site: int


class OnPair(NamedTuple):
    """A test: whether two sites, a below b, are equal."""
    a: int
    b: int


class Scope:
    """The states of all sites and the equality classes on the path to a block."""

    def __init__(self, states, classes):
        self.states = states
        self.classes = classes

    def nested(self):
        """What a nested block starts from; nothing comes back."""
        return Scope(list(self.states), list(self.classes))

    def join(self, a, b):
        self.classes = joined(self.classes, a, b)

    def is_joined(self, a, b):
        return any(a in members and b in members for members in self.classes)


def joined(classes, a, b):
    """The classes after a and b have become one."""
    touched = [members for members in classes if a in members or b in members]
    apart = [members for members in classes if a not in members and b not in members]
    return apart + [frozenset({a, b}).union(*touched)]


def tests_of(rule):
    """The constraints of a rule, and each pair in one class of it."""
    classes = []
    for a, b in rule.pairs:
        classes = joined(classes, a, b)
    pairs = {OnPair(a, b) for members in classes for a, b in combinations(sorted(members), 2)}
    return pairs | {OnSite(constraint.site) for constraint in rule.constraints}


class Planner:
    """Makes the blocks of one book. W, the rules of a block, is a list in the order in which what is
    left of it returns."""

    def __init__(self, book):
        self.sites = book.sites
        self.rules = book.rules
        self.tests = [tests_of(rule) for rule in book.rules]
        self.having = {}
        for i, tests in enumerate(self.tests):
            for test in tests:
                self.having.setdefault(test, set()).add(i)

    def tree(self):
        scope = Scope([UNAVAILABLE] * len(self.sites), [])
        self.work_out_availability(scope)
        return self.block(self.ranked(range(len(self.rules))), scope)

    # Sites and let lists

    def work_out_availability(self, scope):
        for own, site in enumerate(self.sites):
            if scope.states[own] == UNAVAILABLE and site.kind != BOUND_BY_PATTERN:
                if all(scope.states[source] != UNAVAILABLE for source in site.sources):
                    scope.states[own] = AVAILABLE

    def use(self, own, scope, lets):
        """Marks a site Emitted and lists it, its sources before it."""
        if scope.states[own] < EMITTED:
            scope.states[own] = EMITTED
            for source in self.sites[own].sources:
                self.use(source, scope, lets)
            if not self.is_never_listed(own):
                lets.append(own)

    def is_never_listed(self, own):
        site = self.sites[own]
        if site.kind in (MAKE_VARIANT, MAKE_STRUCT):
            return len(site.sources) == 0
        return site.kind in (ARGUMENT, CONST_INT, CONST_PRIM, MATCH_TUPLE)

    # How a block is made

    def block(self, rules, scope):
        steps = []
        while (test := self.choice(rules, scope)) is not None:
            taken = self.counted(test, rules)
            rules = [i for i in rules if i not in taken]
            steps.append(self.step(test, sorted(taken), scope))
        return tuple(steps) + tuple(self.return_step(i, scope) for i in rules)

    def choice(self, rules, scope):
        """The best test, or None if its count is 0 or nothing is left."""
        candidates = self.candidates(rules, scope)
        if not candidates:
            return None
        best = min(candidates, key=lambda test: self.rank(test, rules, scope))
        return best if self.counted(best, rules) else None

    def candidates(self, rules, scope):
        """The open tests that some rule of W has."""
        held = set().union(*(self.tests[i] for i in rules))
        return [test for test in held if self.is_open(test, scope)]

    def is_open(self, test, scope):
        if any(scope.states[site] in (UNAVAILABLE, MATCHED) for site in test):
            return False
        return isinstance(test, OnSite) or not scope.is_joined(test.a, test.b)

    def rank(self, test, rules, scope):
        """Smaller is better: greatest count, Emitted, Match before Equal, smaller ids."""
        lesser_state = min(scope.states[site] for site in test)
        is_pair = isinstance(test, OnPair)
        return (-len(self.counted(test, rules)), -lesser_state, is_pair, tuple(test))

    def counted(self, test, rules):
        """W's rules that have the test and rank at least as high as each that lacks it."""
        having = self.having[test]
        lacking = [self.rules[i].priority for i in rules if i not in having]
        highest = max(lacking, default=LOWEST)
        return {i for i in rules if i in having and self.rules[i].priority >= highest}

    def step(self, test, taken, scope):
        lets = []
        for site in test:
            self.use(site, scope, lets)
        if isinstance(test, OnSite):
            return Step(tuple(lets), Match(test.site, self.arms(test.site, taken, scope)))
        inside = scope.nested()
        inside.join(test.a, test.b)
        return Step(tuple(lets), Equal(test.a, test.b, self.block(self.ranked(taken), inside)))

    def arms(self, source, taken, scope):
        """The rules grouped by their pattern on the source."""
        groups = {}
        for i in taken:
            groups.setdefault(self.pattern(i, source), []).append(i)
        in_order = sorted(groups, key=self.pattern_order)
        return tuple(self.arm(source, pattern, groups[pattern], scope) for pattern in in_order)

    def pattern(self, i, source):
        """Kind, signed number and field count of what rule i asks of the source."""
        [asked] = [c for c in self.rules[i].constraints if c.site == source]
        return (asked.kind, asked.number, asked.fields)

    def pattern_order(self, pattern):
        """Arms come by kind, then signed number, then field count: as `pattern` has them."""
        return pattern

    def arm(self, source, pattern, group, scope):
        kind, number, fields = pattern
        places = tuple(self.place(source, kind, number, k) for k in range(fields))
        inside = scope.nested()
        inside.states[source] = MATCHED
        for site in places:
            if site != EMPTY:
                inside.states[site] = EMITTED
        self.work_out_availability(inside)
        return Arm(kind, fields, number, places, self.block(self.ranked(group), inside))

    def place(self, source, kind, number, position):
        """The kind 7 site of that source, pattern and position, or empty."""
        for own, site in enumerate(self.sites):
            if site.kind == BOUND_BY_PATTERN and site.sources == (source,):
                if (site.pattern, site.number, site.position) == (kind, number, position):
                    return own
        return EMPTY

    def return_step(self, i, scope):
        lets = []
        rule = self.rules[i]
        for site in rule.impures + (rule.result,):
            self.use(site, scope, lets)
        return Step(tuple(lets), Return(i, rule.pos, rule.result))

    def ranked(self, some):
        """Priority descending, then index."""
        return sorted(some, key=lambda i: (-self.rules[i].priority, i))


def tree(book):
    return Planner(book).tree()
