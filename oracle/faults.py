"""Faults planted in the judge's planner, to show that a comparison finds them."""

from judge.plan import EMITTED, MATCHED, OnPair, Planner, tests_of


class WinterFault(Planner):
    """Counts every rule with the test, whatever the rank of those that lack it."""

    def counted(self, test, rules):
        return {i for i in rules if test in self.tests[i]}


class UnsignedOrder(Planner):
    """Orders arms by the unsigned word of their number."""

    def pattern_order(self, pattern):
        kind, number, fields = pattern
        return (kind, number % 2**32, fields)


class DroppedAtZero(Planner):
    """Forgets a test for the rest of the block once its count was 0."""

    def candidates(self, rules, scope):
        if not hasattr(scope, "dropped"):
            scope.dropped = set()
        found = [test for test in super().candidates(rules, scope) if test not in scope.dropped]
        scope.dropped |= {test for test in found if not self.counted(test, rules)}
        return [test for test in found if test not in scope.dropped]


class LeakingArm(Planner):
    """Lets the states inside an arm out to the next step."""

    def arm(self, source, pattern, group, scope):
        made = super().arm(source, pattern, group, scope)
        scope.states[source] = MATCHED
        for site in made.places:
            if site < len(scope.states):
                scope.states[site] = EMITTED
        return made


class LeakingStates(Planner):
    """Lets what an arm has used out to the next step, so that its lets are not listed again."""

    def arm(self, source, pattern, group, scope):
        inside = scope.nested()
        made = super().arm(source, pattern, group, inside)
        for step in made.block:
            for site in step.lets:
                scope.states[site] = max(scope.states[site], EMITTED)
        return made


class StrictPriority(Planner):
    """Counts only rules that rank above, not level with, those that lack the test."""

    def counted(self, test, rules):
        lacking = [self.rules[i].priority for i in rules if test not in self.tests[i]]
        having = [i for i in rules if test in self.tests[i]]
        return {i for i in having if all(self.rules[i].priority > p for p in lacking)}


class PairsAsListed(Planner):
    """Knows only the pairs that a rule lists, not those of its classes."""

    def __init__(self, book):
        super().__init__(book)
        self.tests = [
            {test for test in tests_of(rule) if not isinstance(test, OnPair)
             or (test.a, test.b) in rule.pairs or (test.b, test.a) in rule.pairs}
            for rule in book.rules]
        self.having = {}
        for i, tests in enumerate(self.tests):
            for test in tests:
                self.having.setdefault(test, set()).add(i)


class EqualFirst(Planner):
    """Prefers an Equal to a Match."""

    def rank(self, test, rules, scope):
        count, state, is_pair, ids = super().rank(test, rules, scope)
        return (count, state, not is_pair, ids)


class StatelessChoice(Planner):
    """Does not prefer Emitted sites."""

    def rank(self, test, rules, scope):
        count, _, is_pair, ids = super().rank(test, rules, scope)
        return (count, 0, is_pair, ids)


class GreaterState(Planner):
    """Gives a pair the greater state of its two sites."""

    def rank(self, test, rules, scope):
        count, _, is_pair, ids = super().rank(test, rules, scope)
        return (count, -max(scope.states[site] for site in test), is_pair, ids)


class SourcesAfter(Planner):
    """Lists a site before its sources."""

    def use(self, own, scope, lets):
        if scope.states[own] < EMITTED:
            scope.states[own] = EMITTED
            if not self.is_never_listed(own):
                lets.append(own)
            for source in self.sites[own].sources:
                self.use(source, scope, lets)


class LeakingClasses(Planner):
    """Lets the join of an Equal out to the next step."""

    def step(self, test, taken, scope):
        made = super().step(test, taken, scope)
        if isinstance(test, OnPair):
            scope.join(test.a, test.b)
        return made


FAULTS = {
    "winter": WinterFault, "unsigned-order": UnsignedOrder, "dropped-at-zero": DroppedAtZero,
    "leaking-arm": LeakingArm, "leaking-states": LeakingStates, "strict-priority": StrictPriority,
    "pairs-as-listed": PairsAsListed, "equal-first": EqualFirst,
    "stateless-choice": StatelessChoice, "greater-state": GreaterState,
    "sources-after": SourcesAfter, "leaking-classes": LeakingClasses,
}
