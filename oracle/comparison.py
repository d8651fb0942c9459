"""What is compared of one book: the judge, the Rust, the rules themselves and the Rattle programs."""

from random import Random
from typing import NamedTuple

from books import readings as made
from books.given import some_damage
from books.refused import SPOILERS
from books.styles import MAKERS
from books.write import bytes_of
from casefile import Case, fresh_room
from judge.book import book_of, refusal
from judge.plan import Planner
from judge.sets import find, in_same_set, merge, remove_set_of
from judge.walk import Reading, answer_is_right, walk
from judge.words import block_words, tree_of
from programs import ROOM_WORDS, planner_differs
from rust import Panicked

ACCEPTED, OPEN = 0, None  # what a book's maker expects: no refusal, or it cannot tell
RARE = {24: "one-sided", 49: "full", 74: "one-sided", 99: "long-lets"}  # of a hundred books
COMMON = [name for name in MAKERS if name not in RARE.values()]
READINGS_A_BOOK = 4
CHANGES_A_BOOK = 2
SOME_READING = Reading((0,), (0,), (0,))  # walked where a book is refused


class Asked(NamedTuple):
    style: str
    data: bytes
    expected: object  # ACCEPTED, a refusal number, or OPEN


def asked_book(seed, number):
    """Book `number` of a run: the same seed gives the same book."""
    rng = Random(f"{seed}/{number}")
    slot = number % 100
    if slot in RARE:
        return accepted_book(RARE[slot], rng)
    if slot % 5 == 4:
        return spoiled_book(rng.choice(list(SPOILERS)), rng)
    return accepted_book(COMMON[number % len(COMMON)], rng)


def accepted_book(style, rng):
    return Asked(style, bytes_of(MAKERS[style](rng)), ACCEPTED)


def spoiled_book(name, rng):
    refused = SPOILERS[name](MAKERS[rng.choice(COMMON)](rng), rng)
    return Asked(name, refused.data, refused.number)


class Judged(NamedTuple):
    """What the judge says of a book in a room as large as need be."""
    asked: Asked
    refused: object  # the refusal, or None; then there is no book, no word and no walk
    book: object
    words: list
    walks: list  # of (Reading, answer): of every site, then one longer, one shorter, one lopsided

    @property
    def answer(self):
        return ("words", len(self.words)) if self.refused is None else ("refused", self.refused)


class Comparison:
    """Compares books and keeps count."""

    def __init__(self, rust, planner_class=Planner, program=None):
        self.rust = rust
        self.planner_class = planner_class
        self.program = program  # the Rattle planner's command, or None
        self.readings = 0
        self.tally = {}  # style: counts by what happened

    def judged(self, asked, rng):
        """The judge's word on a book, with readings drawn for it."""
        refused = refusal(asked.data)
        if refused is not None:
            return Judged(asked, refused, None, [], [])
        book = book_of(asked.data)
        words = block_words(self.planner_class(book).tree())
        readings = [made.some_reading(book, rng) for _ in range(READINGS_A_BOOK)]
        readings += [odd(readings[-1], rng) for odd in (made.longer, made.shorter, made.lopsided)]
        return Judged(asked, None, book, words, [(reading, walk(words, reading)) for reading in readings])

    def differences(self, judged):
        """What disagrees about a book, in words; mostly nothing."""
        asked = judged.asked
        self.count(asked.style, "books")
        if asked.expected is not OPEN and (judged.refused or ACCEPTED) != asked.expected:
            yield f"the judge refuses {judged.refused}, planted was {asked.expected}"
        if judged.refused is not None:
            self.count(asked.style, f"refused {judged.refused}")
        else:
            self.count(asked.style, "words", len(judged.words))
            yield from self.word_differences(judged)
            yield from self.walk_differences(judged)
            yield from self.odd_walk_differences(judged)
        yield from self.program_differences(judged)

    def differs(self, asked):
        """Whether anything disagrees, asked of a book on the side: nothing is counted."""
        aside = Comparison(self.rust, self.planner_class, self.program)
        return any(True for _ in aside.differences(aside.judged(asked, Random(asked.data))))

    def word_differences(self, judged):
        """The judge's words against the Rust's, and against themselves read back."""
        if bytes_of(judged.book) != judged.asked.data:
            yield "writing what was read gives other bytes"
        words = judged.words
        try:
            theirs = self.rust.plan(judged.asked.data)
        except Panicked as panic:
            yield f"the Rust {panic}"
            return
        if theirs != words:
            at = next((k for k, (x, y) in enumerate(zip(theirs, words)) if x != y),
                      min(len(theirs), len(words)))
            yield f"words differ from word {at} on: the Rust {theirs[at:at + 6]}, " \
                  f"the judge {words[at:at + 6]}"
        if block_words(tree_of(words)) != words:
            yield "the judge's words read back give others"

    def walk_differences(self, judged):
        """Readings of every site: the rules themselves and the Rust's walk."""
        for reading, answer in judged.walks[:READINGS_A_BOOK]:
            self.count_reading(judged.asked.style, answer)
            if not answer_is_right(judged.book, reading, answer):
                yield f"a walk gives {answer}, the rules say otherwise"
            theirs = self.rust.walk(reading)
            if theirs != answer:
                yield f"the Rust's walk gives {theirs}, the judge's {answer}"

    def odd_walk_differences(self, judged):
        """Readings of other lengths: nothing but 10 and 12 sets them apart."""
        answer = judged.walks[READINGS_A_BOOK - 1][1]
        allowed = ([answer], [answer, ("refused", 12)], [("refused", 10)])
        for (reading, got), right in zip(judged.walks[READINGS_A_BOOK:], allowed):
            self.count_reading(judged.asked.style, got)
            if got not in right:
                yield f"a reading of {list(map(len, reading))} for {len(judged.book.sites)} gives {got}"

    def program_differences(self, judged):
        if self.program is not None:
            printed = planner_differs(self.program, judged.asked.data, judged.answer, judged.words)
            if printed is not None:
                yield f"the planner prints {printed[:60]!r}, the judge has {judged.answer}"

    def set_differences(self, rng):
        """A sequence of set calls, the judge against the Rust; refused calls are the judge's own."""
        calls = [some_set_call(rng) for _ in range(rng.randrange(30))]
        answers, store = judge_sets(calls)
        kept = [call for call, answer in zip(calls, answers) if answer != ("refused", 16)]
        told, left = self.rust.sets(kept)
        if told != [answer for answer in answers if answer != ("refused", 16)]:
            yield f"set calls {kept} answer {told}, the judge says otherwise"
        ours = sorted(((s.rank, s.representative, tuple(sorted(s.members))) for s in store),
                      key=lambda one: one[2])
        if ours != left:
            yield f"set calls {kept} leave {left}, the judge has {ours}"

    def count(self, style, what, by=1):
        tally = self.tally.setdefault(style, {})
        tally[what] = tally.get(what, 0) + by
        if what == "words":
            tally["most words"] = max(tally.get("most words", 0), by)

    def count_reading(self, style, answer):
        self.readings += 1
        self.count(style, " ".join(map(str, answer[:2])) if answer[0] == "refused" else answer[0])


def some_set_call(rng):
    """Mostly merges of few ids, so that sets meet; now and then a bad id."""
    def some_id():
        return rng.choice((rng.randrange(8), rng.randrange(8), rng.randrange(253)))

    name = rng.choice(("merge", "merge", "merge", "find", "same", "remove"))
    return (name, some_id(), some_id()) if name in ("merge", "same") else (name, some_id())


SET_CALLS = {"merge": merge, "find": find, "same": in_same_set, "remove": remove_set_of}


def judge_sets(calls):
    """The judge's answers to set calls on an empty store, and the store."""
    store, answers = (), []
    for name, *ids in calls:
        answer, store = SET_CALLS[name](store, *ids)
        answers.append(answer)
    return answers, store


def replay_cases(judged):
    """The book as cases for `replay`: in rooms of every sort, and its words changed."""
    rng = Random(judged.asked.data)
    if judged.refused is not None:
        room = fresh_room(rng.randrange(64))
        return [Case("", judged.asked.data, judged.answer, room, walked(room, [SOME_READING]))]
    count = len(judged.words)
    readings = [reading for reading, _ in judged.walks]
    if count > ROOM_WORDS:
        return [room_case(judged, length, readings[:1]) for length in (ROOM_WORDS, 0)]
    return [
        room_case(judged, count, readings), room_case(judged, count - 1, readings[:1]),
        room_case(judged, 0, readings[-1:]), room_case(judged, min(count + 7, ROOM_WORDS), readings[1:2]),
        *(changed_case(judged, readings, rng) for _ in range(CHANGES_A_BOOK)),
    ]


def room_case(judged, length, readings):
    """The book in a room of so many words."""
    if length < len(judged.words):
        answer, room = ("refused", 9), [0] * length
    else:
        answer, room = judged.answer, judged.words + fresh_room(length - len(judged.words))
    return Case("", judged.asked.data, answer, room, walked(room, readings))


def changed_case(judged, readings, rng):
    """One of the tree's words changed, and no book: a usual reading and the longer one."""
    words = some_damage(judged.words, rng)
    return Case("", None, None, words, walked(words, [rng.choice(readings), readings[READINGS_A_BOOK]]))


def walked(words, readings):
    """The readings with the judge's answers."""
    return [(reading, walk(words, reading)) for reading in readings]
