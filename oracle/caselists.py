"""The named cases of the checked-in lists: worked books, refusals, limits, styles and given words."""

import re
from random import Random
from typing import NamedTuple

from books import readings as made
from books.given import BY_HAND, every_damage
from books.refused import byte_changed, byte_changed_mended, every_fault, two_faults
from books.styles import MAKERS
from books.worked import A, B, D, WORKED, integer, variant
from books.write import bytes_of, mended
from judge.book import (
    ARGUMENT, BOUND_BY_PATTERN, CONST_INT, CONST_PRIM, EXPRESSION, IS_PRIM, IS_SOME, IS_VARIANT,
    MAKE_STRUCT, MAKE_VARIANT, MATCH_TUPLE, Book, Constraint, Rule, Site, refusal,
)
from judge.plan import Planner
from judge.walk import Reading, walk
from judge.words import block_words

LOWEST, HIGHEST = -2**31, 2**31 - 1


class Named(NamedTuple):
    """A case before it is answered."""
    name: str
    data: bytes
    room_length: int
    readings: tuple = ()


class Given(NamedTuple):
    """The same without a book: words to be walked as they stand."""
    name: str
    words: list
    readings: tuple = ()


def words_of(book):
    return block_words(Planner(book).tree())


def fitting(name, book, spare=0, readings=()):
    """The book in a room that it fills, with some words to spare."""
    return Named(name, bytes_of(book), len(words_of(book)) + spare, tuple(readings))


def usual_readings(book, rng, count=3):
    """Readings that suit rules, and one each that is too long, too short and lopsided."""
    usual = [made.some_reading(book, rng) for _ in range(count)]
    return usual + [made.longer(usual[0], rng), made.shorter(usual[0], rng),
                    made.lopsided(usual[0], rng)]


# Worked books

def worked_cases():
    rng = Random("worked")
    for worked in WORKED:
        if worked.refused:
            yield Named(f"{worked.letter}-refused-{worked.refused}", bytes_of(worked.book), 5,
                        (Reading((), (), ()),))
        else:
            readings = usual_readings(worked.book, rng, 6)
            yield fitting(f"{worked.letter}-fits", worked.book, 0, readings)
            yield fitting(f"{worked.letter}-with-room-to-spare", worked.book, 3, readings[:2])
    yield from rooms_of_b(rng)


def rooms_of_b(rng):
    """Book G and the rooms around it."""
    readings = tuple(usual_readings(B, rng))
    yield Named("G-one-word-short", bytes_of(B), 20, readings)
    yield Named("G-exactly-full", bytes_of(B), 21, readings)
    yield Named("empty-room", bytes_of(B), 0, readings)
    yield Named("one-word-room", bytes_of(B), 1, readings)
    yield Named("A-one-word-short", bytes_of(A), 1, (Reading((), (), ()),))
    yield Named("A-empty-room", bytes_of(A), 0, (Reading((), (), ()), Reading((0,), (), ())))
    yield Named("A-read-with-sites", bytes_of(A), 2, (Reading((), (), ()), Reading((1,), (2,), (3,))))


# Refused books

# Small, and yet with every kind of site, pattern and list in a rule.
RICH = Book(
    (Site(ARGUMENT), Site(BOUND_BY_PATTERN, (0,), IS_VARIANT, 1, -5),
     Site(BOUND_BY_PATTERN, (1,), IS_SOME), Site(CONST_INT), Site(CONST_PRIM),
     Site(MATCH_TUPLE, (2,)), Site(MAKE_VARIANT), Site(MAKE_STRUCT, (0, 3)),
     Site(EXPRESSION, (0, 3, 4, 0))),
    (Rule(10, 7, 5, (variant(0, -5, 2), Constraint(1, IS_SOME, 1, 0)), ((2, 3), (4, 3)), (8,)),
     Rule(10, 8, 6, (Constraint(3, IS_PRIM, 0, 2), integer(8, -1))),
     Rule(-1, 9, 7, (), ((0, 8),), (3, 3))),
)


def refused_cases():
    readings = (Reading((), (), ()), Reading((0, 0), (0, 0), (0,)), Reading((2,), (1,), (0,)))
    assert refusal(bytes_of(RICH)) is None
    yield fitting("rich-book-itself", RICH, 0, usual_readings(RICH, Random("rich")))
    seen = {}
    for fault in every_fault(RICH):
        seen.setdefault(place_of(fault), fault)
    for fault in seen.values():
        yield Named(f"{fault.number}: {fault.label}", fault.data, 3, readings[:1])
    rng = Random("two faults")
    both = {}
    while len(both) < 10:
        fault = two_faults(RICH, rng)
        if " / " in fault.label:  # not one that had to stay alone
            both[fault.label] = fault
    for label, fault in both.items():
        yield Named(f"lowest is {fault.number}: {label}", fault.data, 2, readings)
    for k in range(6):
        spoiled = byte_changed_mended(RICH, rng) if k % 4 else byte_changed(RICH, rng)
        yield Named(f"changed: {spoiled.label}", spoiled.data, 99, readings)


def place_of(fault):
    """The field that the fault is in; records of a kind, sums and fillers are alike."""
    if fault.number == 2 or "filler" in fault.label:
        return fault.number, re.sub(r"\d+", "#", fault.label)
    return fault.number, re.sub(r"^(site|rule) \d+|(?<= is )\d+$", "#", fault.label)


# Limits

def limit_cases():
    yield from length_cases()
    yield from count_cases()
    yield from number_cases()
    yield from full_rule_cases()
    yield from fault_cases()


def length_cases():
    head = bytes_of(A)
    for name, data in (("empty-input", b""), ("511-bytes", head[:511]), ("512-bytes", head),
                       ("513-bytes", head + b"\0"), ("1024-zero-bytes", bytes(1024)),
                       ("512-zero-bytes-with-a-right-sum", mended(bytes(512)))):
        yield Named(name, data, 2, (Reading((), (), ()),))


def many_sites(count):
    """A chain of expressions, the last one asked."""
    sites = (Site(ARGUMENT),) + tuple(Site(EXPRESSION, (k,)) for k in range(count - 1))
    return Book(sites, (Rule(0, 1, count - 1, (integer(count - 1, 7),)),))


def many_rules(count):
    """As many arms as rules, numbers falling."""
    rules = tuple(Rule(k % 5, k, k % 3, (integer(k % 2, -k),)) for k in range(count))
    return Book((Site(ARGUMENT), Site(ARGUMENT), Site(CONST_INT)), rules)


def count_cases():
    rng = Random("counts")
    for count in (41, 42, 43, 252):
        book = many_sites(count)
        yield fitting(f"{count}-sites", book, 1, usual_readings(book, rng))
    for count in (6, 7, 8, 252):
        book = many_rules(count)
        yield fitting(f"{count}-rules", book, 1, usual_readings(book, rng))
    yield Named("253-sites", bytes_of(many_sites(253)), 4)
    yield Named("253-rules", bytes_of(many_rules(253)), 4)
    yield Named("sites-and-no-rules", bytes_of(Book(many_sites(50).sites, ())), 2,
                (Reading((), (), ()),))
    arms = tuple(Rule(0, k, 40, (integer(0, k),)) for k in range(60))
    large = Book(many_sites(41).sites, arms)
    yield Named("large-tree-in-a-small-room", bytes_of(large), 100, usual_readings(large, rng, 1))
    listed_often = Book(large.sites, arms[:12])
    yield fitting("long-let-list-in-every-arm", listed_often, 0, usual_readings(listed_often, rng))


def number_cases():
    """Numbers, priorities and pos at the ends of 32 bits."""
    rng = Random("numbers")
    ends = (LOWEST, LOWEST + 1, -1, 0, 1, HIGHEST)
    sites = (Site(ARGUMENT), Site(ARGUMENT))
    arms = [Rule(0, 2**32 - 1, 0, (integer(0, number),)) for number in ends]
    arms += [Rule(0, 0, 1, (Constraint(0, IS_PRIM, 0, number),)) for number in ends[::-1]]
    arms += [Rule(0, 0, 1, (variant(0, number, 4),)) for number in ends]
    ranks = [Rule(number, 0, 0, (integer(k % 2, k),)) for k, number in enumerate(ends)]
    for name, rules in (("arms-of-every-kind-and-sign", arms), ("priorities-at-the-ends", ranks)):
        book = Book(sites, tuple(rules))
        yield fitting(name, book, 0, usual_readings(book, rng, 6))


def full_rule_cases():
    """Four of everything; nesting 8 by four constraints and four pairs."""
    rng = Random("full rules")
    sites = tuple(Site(ARGUMENT) for _ in range(12)) + (Site(EXPRESSION, (0, 1, 2, 3)),)
    asked = tuple(variant(site, site, 4) for site in range(4))
    for name, pairs in (("nesting-8", ((4, 5), (7, 6), (8, 9), (11, 10))),
                        ("four-pairs-of-one-class", ((4, 5), (5, 6), (6, 7), (7, 8))),
                        ("a-pair-four-times", ((4, 5), (5, 4), (4, 5), (4, 5)))):
        book = Book(sites, (Rule(0, 1, 12, asked, pairs, (12, 0, 12, 5)), Rule(-3, 2, 4)))
        yield fitting(name, book, 0, usual_readings(book, rng, 6))
    five = bytearray(bytes_of(Book(sites, (Rule(0, 1, 12, asked),))))
    five[1024 + 4 + 10] = 5
    yield Named("a-5-in-a-constraint-count", mended(five), 3)


def fault_cases():
    """The smallest books that show an easy way to be wrong."""
    rng = Random("faults")
    argument, expression = Site(ARGUMENT), Site(EXPRESSION)
    some = (Constraint(0, IS_SOME, 1, 0),)
    books = {
        "winter-fault": Book((argument,), (Rule(1, 1, 0), Rule(0, 1, 0, some))),
        "unsigned-order": Book((argument,), (Rule(1, 1, 0, (integer(0, 0),)),
                                             Rule(1, 1, 0, (integer(0, -400),)))),
        "dropped-at-count-0": Book((argument, expression), (
            Rule(1, 1, 0, (), ((1, 0),)), Rule(0, 1, 0, (Constraint(1, IS_SOME, 1, 0),)))),
        "states-out-of-an-arm": Book((argument, expression), (
            Rule(1, 1, 0, some + (Constraint(1, IS_SOME, 1, 0),)), Rule(1, 1, 1))),
        "classes-out-of-an-equal": Book((argument, argument, argument), (
            Rule(0, 1, 0, (), ((1, 0),)), Rule(1, 1, 0, (), ((1, 2),)), Rule(1, 1, 0, (), ((0, 2),)))),
        "kind-7-site-in-a-dead-return": Book(
            (argument, Site(BOUND_BY_PATTERN, (0,), IS_VARIANT, 0, 1)),
            (Rule(0, 1, 1, (variant(0, 1, 1),)), Rule(1, 2, 0))),
    }
    for name, book in books.items():
        yield fitting(name, book, 2, usual_readings(book, rng, 6))


# Styles

BOOKS_A_STYLE = 3
LARGE = {"full": 1, "sparse": 2, "dense": 2, "long-lets": 0}  # long let lists have a small case under limits


def style_cases(seed):
    for style, make in MAKERS.items():
        for number in range(LARGE.get(style, BOOKS_A_STYLE)):
            rng = Random(f"{seed}/{style}/{number}")
            book = make(rng)
            spare = rng.choice((0, 0, 5))
            yield fitting(f"{style}-{number}", book, spare, usual_readings(book, rng))


# Given words

# A small tree with places: one empty, and one that leads on.
PLACES = Book(
    (Site(ARGUMENT), Site(BOUND_BY_PATTERN, (0,), IS_VARIANT, 0, 1), Site(BOUND_BY_PATTERN, (1,), IS_SOME)),
    (Rule(0, 4, 2, (variant(0, 1, 2), Constraint(1, IS_SOME, 1, 0))),),
)
MANY_SITES = 252


def given_cases():
    """Every word of small trees changed, and word lists by hand."""
    for name, words in BY_HAND.items():
        yield Given(name, words, (Reading((), (), ()), *damage_readings(PLACES, words)))
    for letter, book in (("A", A), ("B", B), ("D", D), ("places", PLACES)):
        words = words_of(book)
        for at, other, changed in every_damage(words):
            yield Given(f"{letter}: word {at}, {words[at]}, is {other}", changed,
                        damage_readings(book, changed))


def damage_readings(book, words):
    """One that suits the first rule; if that is too short for the changed words, one of 252 sites."""
    short = suiting(book, len(book.sites))
    if walk(words, short) == ("refused", 12):
        return short, suiting(book, MANY_SITES)
    return (short,)


def suiting(book, length):
    """A reading of so many sites, all of one identity, that suits the book's first rule."""
    kinds, numbers, identities = [0] * length, [0] * length, [7] * length
    for rule in book.rules[:1]:
        made.suit(rule, kinds, numbers, identities)
    return Reading(tuple(kinds), tuple(numbers), tuple(identities))


def lists(seed):
    """File name: its cases."""
    return {
        "worked": list(worked_cases()), "refused": list(refused_cases()),
        "limits": list(limit_cases()), "styles": list(style_cases(seed)), "given": list(given_cases()),
    }
