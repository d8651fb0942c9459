"""The listing of a tree, one line a step or arm, and a listing back to its tree.

`listing` writes what the definition says (crates/definition/specs/Listing.antt); `tree_of_listing` knows
only how a line looks, so what it cannot read back is not in the text.
"""

import re

from .book import IS_INT, IS_PRIM, IS_SOME, IS_VARIANT
from .plan import EMPTY, Arm, Equal, Match, Return, Step

KIND_NAMES = {IS_INT: "ConstInt", IS_PRIM: "ConstPrim", IS_VARIANT: "Variant", IS_SOME: "Some"}


# Writing

def listing(steps):
    return "".join(line + "\n" for line in block_lines(steps, ()))


def block_lines(steps, path):
    for number, step in enumerate(steps, 1):
        for site in step.lets:
            yield f"{indent(path)}let site {site}"
        yield from flow_lines(step.flow, path + (number,))


def flow_lines(flow, path):
    if isinstance(flow, Match):
        yield f"{start(path)}match site {flow.source}"
        for number, arm in enumerate(flow.arms, 1):
            yield f"{start(path + (number,))}is {pattern_text(arm)}"
            yield from block_lines(arm.block, path + (number,))
    elif isinstance(flow, Equal):
        yield f"{start(path)}equal sites {flow.a} and {flow.b}"
        yield from block_lines(flow.block, path)
    else:
        yield f"{start(path)}return rule {flow.rule} pos {flow.pos} result {flow.result}"


def indent(path):
    """Of what stands in this path: two spaces for each number."""
    return "  " * len(path)


def start(path):
    return indent(path[:-1]) + ".".join(map(str, path)) + " "


def pattern_text(arm):
    words = [KIND_NAMES[arm.kind]]
    if arm.kind != IS_SOME:
        words.append(str(arm.number))
    if arm.kind == IS_INT:
        words.append(f"tenths = {degrees(arm.number)} degrees")
    if arm.places:
        words.append("places " + " ".join("empty" if p == EMPTY else str(p) for p in arm.places))
    return " ".join(words)


def degrees(tenths):
    sign = "-" if tenths < 0 else ""
    return f"{sign}{abs(tenths) // 10}.{abs(tenths) % 10}"


# Reading back

LINE = re.compile(r"( *)(?:let site (\d+)|([\d.]+) (.*))")
MATCH = re.compile(r"match site (\d+)")
EQUAL = re.compile(r"equal sites (\d+) and (\d+)")
RETURN = re.compile(r"return rule (\d+) pos (\d+) result (\d+)")
ARM = re.compile(r"is (\w+)(?: (-?\d+))?(?: tenths = \S+ degrees)?(?: places (.*))?")


class Lines:
    """Takes lines one after the other, by how far they are indented."""

    def __init__(self, text):
        self.lines = [LINE.fullmatch(line).groups() for line in text.splitlines()]
        self.at = 0

    def here(self, depth):
        """Whether a line of this depth comes next."""
        return self.at < len(self.lines) and len(self.lines[self.at][0]) == 2 * depth

    def block(self, path):
        steps = []
        while self.here(len(path)):
            steps.append(self.step(path + (len(steps) + 1,)))
        return tuple(steps)

    def step(self, path):
        lets = []
        while self.lines[self.at][1] is not None:
            lets.append(int(self.lines[self.at][1]))
            self.at += 1
        return Step(tuple(lets), self.flow(path))

    def said(self, path):
        _, _, number, rest = self.lines[self.at]
        assert number == ".".join(map(str, path)), (number, path)
        self.at += 1
        return rest

    def flow(self, path):
        said = self.said(path)
        if found := MATCH.fullmatch(said):
            arms = []
            while self.here(len(path)):
                arms.append(self.arm(path + (len(arms) + 1,)))
            return Match(int(found[1]), tuple(arms))
        if found := EQUAL.fullmatch(said):
            return Equal(int(found[1]), int(found[2]), self.block(path))
        return Return(*map(int, RETURN.fullmatch(said).groups()))

    def arm(self, path):
        name, number, places = ARM.fullmatch(self.said(path)).groups()
        kind = {name: kind for kind, name in KIND_NAMES.items()}[name]
        sites = tuple(EMPTY if p == "empty" else int(p) for p in (places or "").split())
        return Arm(kind, len(sites), int(number or 0), sites, self.block(path))


def tree_of_listing(text):
    lines = Lines(text)
    steps = lines.block(())
    assert lines.at == len(lines.lines)
    return steps
