"""One fault planted in the rules of an accepted book: refusals 6, 7 and 8.

Each function yields (label, book): every rule is right by itself (5), and no lower number fits.
"""

from judge.book import BOUND_BY_PATTERN, IS_INT, IS_VARIANT, Book, Constraint, binds, reached

from .grow import MOST_IN_A_RULE

# Numbers that no style draws, so that a constraint made with one meets no other field count.
FRESH_FOR_7, FRESH_FOR_8 = 1_000_007, 1_000_008


def with_rule(book, k, rule):
    return Book(book.sites, book.rules[:k] + (rule,) + book.rules[k + 1:])


def constrained(rule):
    return {constraint.site for constraint in rule.constraints}


def paired(rule):
    return {site for pair in rule.pairs for site in pair}


def faults_6(book):
    """A Variant of one rule asked with another field count by another rule."""
    for k, rule in enumerate(book.rules):
        for constraint in rule.constraints:
            if constraint.kind == IS_VARIANT:
                for fields in {0, 1, 2, 3, 4} - {constraint.fields}:
                    yield from asked_elsewhere(book, k, constraint._replace(fields=fields))


def asked_elsewhere(book, k, constraint):
    for other, rule in enumerate(book.rules):
        roomy = len(rule.constraints) < MOST_IN_A_RULE
        if other != k and roomy and constraint.site not in constrained(rule):
            wrong = rule._replace(constraints=rule.constraints + (constraint,))
            yield f"rules {k} and {other} on site {constraint.site}", with_rule(book, other, wrong)


def faults_7(book):
    """A pair added to a constrained site, or a constraint to a paired one."""
    for k, rule in enumerate(book.rules):
        if len(rule.pairs) < MOST_IN_A_RULE:
            for site in constrained(rule):
                for other in {0, len(book.sites) - 1} - {site}:
                    for pair in ((site, other), (other, site)):
                        wrong = rule._replace(pairs=rule.pairs + (pair,))
                        yield f"rule {k} pair {pair}", with_rule(book, k, wrong)
        if len(rule.constraints) < MOST_IN_A_RULE:
            for site in paired(rule):
                more = Constraint(site, IS_INT, 0, FRESH_FOR_7)
                wrong = rule._replace(constraints=rule.constraints + (more,))
                yield f"rule {k} constrains paired {site}", with_rule(book, k, wrong)


def faults_8(book):
    yield from new_reaches(book)
    yield from lost_bindings(book)


def new_reaches(book):
    """A rule made to name a site from which it reaches a kind 7 site that it does not bind."""
    for k, rule in enumerate(book.rules):
        for site in unbound_for(book, rule):
            for label, wrong in ways_to_name(rule, site):
                yield f"rule {k} {label} {site}", with_rule(book, k, wrong)


def unbound_for(book, rule):
    """The sites that the rule may not name."""
    for site in range(len(book.sites)):
        below = reached(book, rule._replace(constraints=(), pairs=(), impures=(), result=site))
        bound = [book.sites[k] for k in below if book.sites[k].kind == BOUND_BY_PATTERN]
        if not all(binds(rule, one) for one in bound):
            yield site


def ways_to_name(rule, site):
    yield "results in", rule._replace(result=site)
    if len(rule.impures) < MOST_IN_A_RULE:
        yield "has impure", rule._replace(impures=rule.impures + (site,))
    free = {0} - {site} - constrained(rule)
    if len(rule.pairs) < MOST_IN_A_RULE and free and site not in constrained(rule):
        yield "pairs 0 with", rule._replace(pairs=rule.pairs + ((0, site),))
    taken = constrained(rule) | paired(rule)
    if len(rule.constraints) < MOST_IN_A_RULE and site not in taken:
        more = Constraint(site, IS_INT, 0, FRESH_FOR_8)
        yield "constrains", rule._replace(constraints=rule.constraints + (more,))


def lost_bindings(book):
    """A needed constraint given up, or its kind, number or field count changed."""
    for k, rule in enumerate(book.rules):
        bound = [book.sites[site] for site in reached(book, rule)]
        for one in (site for site in bound if site.kind == BOUND_BY_PATTERN):
            source = one.sources[0]
            rest = tuple(c for c in rule.constraints if c.site != source)
            for label, instead in other_patterns(source):
                wrong = rule._replace(constraints=rest + instead)
                yield f"rule {k} site {source} {label}", with_rule(book, k, wrong)
            if one.pattern == IS_VARIANT:
                yield f"site {source} without position", without_position(book, one)


def other_patterns(source):
    yield "other kind", (Constraint(source, IS_INT, 0, FRESH_FOR_8),)
    yield "other number", (Constraint(source, IS_VARIANT, 4, FRESH_FOR_8),)
    yield "not constrained", ()


def without_position(book, bound):
    """The pattern's field count lowered in every rule to the position that a site hangs on."""
    asked = (bound.sources[0], bound.pattern, bound.number)

    def lowered(constraint):
        same = (constraint.site, constraint.kind, constraint.number) == asked
        return constraint._replace(fields=bound.position) if same else constraint

    return Book(book.sites, tuple(
        rule._replace(constraints=tuple(map(lowered, rule.constraints))) for rule in book.rules))
