"""A book in words, for a difference that somebody has to read."""

SITE_KINDS = ("Argument", "ConstInt", "ConstPrim", "MatchTuple", "MakeVariant", "MakeStruct",
              "expression", "bound")
PATTERN_KINDS = ("ConstInt", "ConstPrim", "Variant", "Some")


def book_lines(book):
    yield f"{len(book.sites)} sites, {len(book.rules)} rules"
    for own, site in enumerate(book.sites):
        yield f"site {own} {site_line(site)}"
    for k, rule in enumerate(book.rules):
        yield f"rule {k} {rule_line(rule)}"


def site_line(site):
    of = " of " + " ".join(map(str, site.sources)) if site.sources else ""
    if site.kind != 7:
        return SITE_KINDS[site.kind] + of
    return f"bound{of} by {PATTERN_KINDS[site.pattern]} {site.number} position {site.position}"


def rule_line(rule):
    asked = [f"{c.site} is {PATTERN_KINDS[c.kind]} {c.number} ({c.fields} fields)"
             for c in rule.constraints]
    asked += [f"{a} = {b}" for a, b in rule.pairs] + [f"impure {site}" for site in rule.impures]
    head = f"priority {rule.priority} pos {rule.pos} result {rule.result}"
    return f"{head}: {', '.join(asked) or 'always'}"
