"""The smallest book that still fails: rules, their parts and sites are dropped while it does."""

from judge.book import Book, refusal, sites_named

from books.write import bytes_of


def smallest(book, still_fails):
    """Shrinks an accepted book; what is tried is accepted too."""
    def fails(candidate):
        accepted = candidate is not None and refusal(bytes_of(candidate)) is None
        return accepted and still_fails(candidate)

    while True:
        smaller = next(filter(fails, smaller_books(book)), None)
        if smaller is None:
            return book
        book = smaller


def smaller_books(book):
    """Books a step smaller, the boldest steps first."""
    half = len(book.rules) // 2
    if half > 1:
        yield Book(book.sites, book.rules[:half])
        yield Book(book.sites, book.rules[half:])
    for k in range(len(book.rules)):
        yield Book(book.sites, book.rules[:k] + book.rules[k + 1:])
    for k, rule in enumerate(book.rules):
        for less in smaller_rules(rule):
            yield Book(book.sites, book.rules[:k] + (less,) + book.rules[k + 1:])
    for site in reversed(range(len(book.sites))):
        yield from without_site(book, site)
        yield from (renamed(book, site, lower) for lower in range(site))
    yield from with_fewer_sources(book)


def smaller_rules(rule):
    for name in ("constraints", "pairs", "impures"):
        things = getattr(rule, name)
        for k in range(len(things)):
            yield rule._replace(**{name: things[:k] + things[k + 1:]})
    if rule.result > 0:
        yield rule._replace(result=0)
    if abs(rule.priority) > 1:
        yield rule._replace(priority=int(rule.priority / 2))
    if rule.pos > 1:
        yield rule._replace(pos=rule.pos // 2)


def with_fewer_sources(book):
    for own, site in enumerate(book.sites):
        if site.kind in (4, 5, 6):
            for k in range(len(site.sources)):
                less = site._replace(sources=site.sources[:k] + site.sources[k + 1:])
                yield Book(book.sites[:own] + (less,) + book.sites[own + 1:], book.rules)


def without_site(book, gone):
    """The book without a site that nothing names, the ids above it moved down."""
    if gone in named(book):
        return

    def moved(site):
        return site - 1 if site > gone else site

    sites = tuple(site._replace(sources=tuple(map(moved, site.sources)))
                  for own, site in enumerate(book.sites) if own != gone)
    yield Book(sites, tuple(with_ids(rule, moved) for rule in book.rules))


def renamed(book, site, other):
    """The book with a lower site in every rule that names this one, or none if no rule does."""
    if not any(site in sites_named(rule) for rule in book.rules):
        return None

    def moved(named_site):
        return other if named_site == site else named_site

    return Book(book.sites, tuple(with_ids(rule, moved) for rule in book.rules))


def with_ids(rule, moved):
    return rule._replace(
        result=moved(rule.result), impures=tuple(map(moved, rule.impures)),
        pairs=tuple((moved(a), moved(b)) for a, b in rule.pairs),
        constraints=tuple(c._replace(site=moved(c.site)) for c in rule.constraints))


def named(book):
    found = {source for site in book.sites for source in site.sources}
    for rule in book.rules:
        found |= set(sites_named(rule))
    return found
