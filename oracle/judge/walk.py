"""Walking a tree, and what a walk has to find (document 01, "Walking").

`answer_is_right` asks the rules themselves and needs no tree.
"""

from typing import NamedTuple

from .plan import EMPTY, Equal, Match, Return
from .words import NoTree, tree_of


class Reading(NamedTuple):
    kinds: tuple
    numbers: tuple
    identities: tuple


def walk(words, reading):
    """The rule and result that the words lead to, nothing, or a refusal (10, then 11, then 12)."""
    if not len(reading.kinds) == len(reading.numbers) == len(reading.identities):
        return ("refused", 10)
    try:
        tree = tree_of(words)
    except NoTree:
        return ("refused", 11)
    if any(site >= len(reading.kinds) for site in sites_named(tree)):
        return ("refused", 12)
    found = walk_block(tree, reading)
    return ("nothing",) if found is None else ("found", found.rule, found.result)


def sites_named(steps):
    """Every site that stands in a block, whether a walk gets there or not."""
    for lets, flow in steps:
        yield from lets
        if isinstance(flow, Match):
            yield flow.source
            for arm in flow.arms:
                yield from (place for place in arm.places if place != EMPTY)
                yield from sites_named(arm.block)
        elif isinstance(flow, Equal):
            yield flow.a
            yield flow.b
            yield from sites_named(flow.block)
        else:
            yield flow.result


def walk_block(steps, reading):
    """Does steps in order and stops at a Return; falls through where nothing holds."""
    for step in steps:
        if isinstance(step.flow, Return):
            return step.flow
        found = walk_block(entered(step.flow, reading), reading)
        if found is not None:
            return found
    return None


def entered(flow, reading):
    """The block that a Match or an Equal leads into: the first holding arm's, or none."""
    if isinstance(flow, Equal):
        return flow.block if pair_holds(flow.a, flow.b, reading) else ()
    for arm in flow.arms:
        if pattern_holds(flow.source, arm.kind, arm.number, reading):
            return arm.block
    return ()


def pattern_holds(site, kind, number, reading):
    return (reading.kinds[site], reading.numbers[site]) == (kind, number)


def pair_holds(a, b, reading):
    return reading.identities[a] == reading.identities[b]


def matches(rule, reading):
    """All constraints and pairs of the rule hold."""
    return all(
        pattern_holds(c.site, c.kind, c.number, reading) for c in rule.constraints
    ) and all(pair_holds(a, b, reading) for a, b in rule.pairs)


def answer_is_right(book, reading, answer):
    """Nothing exactly when no rule matches; else a matching rule that no matching rule outranks."""
    matching = [i for i, rule in enumerate(book.rules) if matches(rule, reading)]
    if not matching:
        return answer == ("nothing",)
    if answer[0] != "found" or answer[1] not in matching:
        return False
    chosen = book.rules[answer[1]]
    highest = max(book.rules[i].priority for i in matching)
    return chosen.priority == highest and answer[2] == chosen.result
