"""The disjoint sets of ids (document 01, "Sets").

A store is a tuple of sets; each call takes the store and hands the next one back beside its answer.
An answer is None for a merge, a representative or None, a truth, members, or ("refused", 16).
"""

from typing import NamedTuple

HIGHEST_ID = 251
REFUSED = ("refused", 16)
EMPTY = ()


class Set(NamedTuple):
    members: frozenset
    representative: int
    rank: int


def set_of(store, x):
    return next((one for one in store if x in one.members), None)


def merge(store, x, y):
    if x == y or max(x, y) > HIGHEST_ID:
        return REFUSED, store
    first = set_of(store, x) or Set(frozenset({x}), x, 0)
    second = set_of(store, y) or Set(frozenset({y}), y, 0)
    if first == second:
        return None, store
    apart = tuple(one for one in store if one not in (first, second))
    return None, apart + (union(first, second),)


def union(first, second):
    """Keeps the root of greater rank, on a tie the first one's, whose rank grows."""
    members = first.members | second.members
    if first.rank == second.rank:
        return Set(members, first.representative, first.rank + 1)
    kept = first if first.rank > second.rank else second
    return Set(members, kept.representative, kept.rank)


def find(store, x):
    if x > HIGHEST_ID:
        return REFUSED, store
    one = set_of(store, x)
    return (None if one is None else one.representative), store


def in_same_set(store, x, y):
    if max(x, y) > HIGHEST_ID:
        return REFUSED, store
    return any(x in one.members and y in one.members for one in store), store


def remove_set_of(store, x):
    if x > HIGHEST_ID:
        return REFUSED, store
    removed = set_of(store, x)
    members = () if removed is None else tuple(sorted(removed.members))
    return members, tuple(one for one in store if one != removed)
