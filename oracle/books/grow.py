"""Growing accepted books: what would be refused by 4 to 8 is left out while a book grows."""

from judge.book import (
    BOUND_BY_PATTERN, FIELD_COUNTS, IS_SOME, IS_VARIANT, Book, Constraint, Rule, reached,
)

MOST_IN_A_RULE = 4  # constraints, pairs, impure sites


class Desk:
    """The rule desk: holds the sites and rules so far, and one field count for each pattern."""

    def __init__(self, rng):
        self.rng = rng
        self.sites = []
        self.rules = []
        self.fields = {}  # (site, pattern kind, number): field count, so that refusal 6 stays away

    def book(self):
        return Book(tuple(self.sites), tuple(self.rules))

    def add_site(self, site):
        """Adds a site unless it is a kind 7 site that the book has already."""
        if site.kind != BOUND_BY_PATTERN or site not in self.sites:
            self.sites.append(site)

    def constraint(self, site, kind, number):
        """The constraint with the field count that this site, kind and number have in the book."""
        key = (site, kind, number)
        if key not in self.fields:
            self.fields[key] = self.new_field_count(*key)
        return Constraint(site, kind, self.fields[key], number)

    def new_field_count(self, site, kind, number):
        """Mostly enough for every position bound there; sometimes more, rarely fewer."""
        if kind != IS_VARIANT:
            return max(FIELD_COUNTS[kind])
        positions = [bound.position for bound in self.bound_on(site)
                     if (bound.pattern, bound.number) == (kind, number)]
        enough = max(positions, default=-1) + 1
        return max(0, min(MOST_IN_A_RULE, enough + self.rng.choice((-1, 0, 0, 0, 0, 0, 1, 2))))

    def bound_on(self, site):
        """The kind 7 sites whose source is this one."""
        return [bound for bound in self.sites
                if bound.kind == BOUND_BY_PATTERN and bound.sources == (site,)]

    def grown(self, rule, constraints=(), pairs=(), impures=(), result=None):
        """The rule with more in it and with what that needs, or as it was if that is refused."""
        wanted = Rule(rule.priority, rule.pos, rule.result if result is None else result,
                      rule.constraints + tuple(constraints), rule.pairs + tuple(pairs),
                      rule.impures + tuple(impures))
        asked = {}
        for constraint in wanted.constraints + self.needed(wanted):
            if asked.setdefault(constraint.site, constraint) != constraint:
                return rule
        if not self.is_within_limits(wanted, asked):
            return rule
        return wanted._replace(constraints=tuple(asked.values()))

    def needed(self, rule):
        """The constraints that bind every kind 7 site within the rule's reach."""
        found = sorted(reached(self, rule))
        bound = [self.sites[k] for k in found if self.sites[k].kind == BOUND_BY_PATTERN]
        return tuple(self.constraint(b.sources[0], b.pattern, b.number) for b in bound)

    def is_within_limits(self, rule, asked):
        counts = (len(asked), len(rule.pairs), len(rule.impures))
        paired = {site for pair in rule.pairs for site in pair}
        if max(counts) > MOST_IN_A_RULE or paired & asked.keys():
            return False
        bound = [self.sites[k] for k in reached(self, rule)]
        return all(b.position < asked[b.sources[0]].fields
                   for b in bound if b.kind == BOUND_BY_PATTERN)


def some_number(kind, number):
    """Number of a pattern: Some has none."""
    return 0 if kind == IS_SOME else number
