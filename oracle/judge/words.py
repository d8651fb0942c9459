"""A tree as words, and words as a tree (document 01, "Tree words"), and planning into a room.

Answers are tuples: ("words", count), ("found", rule, result), ("nothing",) or ("refused", number).
"""

from . import book as books
from . import plan as planning
from .plan import EMPTY, Arm, Equal, Match, Return, Step

DEEPEST = 8  # nesting below the root
HIGHEST_ID = 251
TAG_MATCH, TAG_EQUAL, TAG_RETURN = 0, 1, 3


class NoTree(Exception):
    """Words that are no tree: refusal 11."""


# Writing

def block_words(steps):
    rest = [len(steps)] + [word for step in steps for word in step_words(step)]
    return [len(rest)] + rest


def step_words(step):
    return [len(step.lets), *step.lets] + flow_words(step.flow)


def flow_words(flow):
    if isinstance(flow, Match):
        arms = [word for arm in flow.arms for word in arm_words(arm)]
        return [TAG_MATCH, flow.source, len(flow.arms)] + arms
    if isinstance(flow, Equal):
        return [TAG_EQUAL, flow.a, flow.b] + block_words(flow.block)
    return [TAG_RETURN, flow.rule, flow.pos, flow.result]


def arm_words(arm):
    return [arm.kind, arm.fields, arm.number % 2**32, *arm.places] + block_words(arm.block)


def plan(data, room, make_tree=planning.tree):
    """Plans a book into a room: the answer, and the whole room after the call."""
    refused = books.refusal(data)
    if refused is not None:
        return ("refused", refused), list(room)
    words = block_words(make_tree(books.book_of(data)))
    if len(words) > len(room):
        return ("refused", 9), [0] * len(room)
    return ("words", len(words)), words + list(room[len(words):])


# Reading back

class Reader:
    """Takes words one after the other, up to the end of the block under work."""

    def __init__(self, words):
        self.words = words
        self.at = 0
        self.end = len(words)

    def word(self):
        need(self.at < self.end)
        self.at += 1
        return self.words[self.at - 1]

    def site(self):
        site = self.word()
        need(site <= HIGHEST_ID)
        return site

    def block(self, nesting):
        need(nesting <= DEEPEST)
        length = self.word()
        need(self.at + length <= self.end)
        outer_end, self.end = self.end, self.at + length
        steps = tuple(self.step(nesting) for _ in range(self.word()))
        need(self.at == self.end)
        self.end = outer_end
        return steps

    def step(self, nesting):
        lets = tuple(self.site() for _ in range(self.word()))
        tag = self.word()
        if tag == TAG_MATCH:
            source = self.site()
            return Step(lets, Match(source, tuple(self.arm(nesting) for _ in range(self.word()))))
        if tag == TAG_EQUAL:
            a, b = self.site(), self.site()
            need(a < b)
            return Step(lets, Equal(a, b, self.block(nesting + 1)))
        need(tag == TAG_RETURN)
        rule, pos, result = self.word(), self.word(), self.site()
        need(rule <= HIGHEST_ID)
        return Step(lets, Return(rule, pos, result))

    def arm(self, nesting):
        kind, fields, number = self.word(), self.word(), signed(self.word())
        need(books.pattern_is_right(kind, fields, number))
        places = tuple(self.place() for _ in range(fields))
        return Arm(kind, fields, number, places, self.block(nesting + 1))

    def place(self):
        site = self.word()
        need(site <= HIGHEST_ID or site == EMPTY)
        return site


def need(holds):
    if not holds:
        raise NoTree


def signed(word):
    return word - 2**32 if word >= 2**31 else word


def tree_of(words):
    """The tree that starts with the first word; what follows its root block is ignored."""
    return Reader(words).block(0)
