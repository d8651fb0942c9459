#!/usr/bin/env python3
"""Tests of the listing: what it looks like, that nothing is hidden in it, and what `lister` prints.

python3 oracle/listing_tests.py [SEED]. The program is asked where it stands: crates/lister/out/lister.
"""

import subprocess
import sys
import unittest
from pathlib import Path
from random import Random

from books.oil import BOOKS, OIL, WINTER
from books.styles import MAKERS
from books.worked import B, E, H, WORKED
from books.write import bytes_of
from judge.book import (
    ARGUMENT, EXPRESSION, IS_INT, IS_PRIM, IS_SOME, IS_VARIANT, Book, Constraint, Rule, Site, refusal,
)
from judge.listing import degrees, listing, tree_of_listing
from judge.plan import EMPTY, Arm, Equal, Match, Return, Step, tree
from judge.words import DEEPEST, HIGHEST_ID, block_words, tree_of
from programs import built

ROOT = Path(__file__).parent.parent
LISTER = built("lister")
SEED = 1

# Written out by hand from document 01 and the definition of the text.
LISTING_OF_B = """\
1 match site 0
  1.1 is Variant 1
    1.1.1 return rule 0 pos 100 result 1
2 return rule 1 pos 200 result 2
"""
LISTING_OF_E = """\
let site 1
let site 2
1 match site 2
  1.1 is ConstInt 7 tenths = 0.7 degrees
    1.1.1 return rule 0 pos 9 result 3
"""
LISTING_OF_H = """\
1 match site 0
  1.1 is ConstInt -400 tenths = -40.0 degrees
    1.1.1 return rule 1 pos 2 result 2
  1.2 is ConstInt 85 tenths = 8.5 degrees
    1.2.1 return rule 0 pos 1 result 2
"""
LISTING_OF_WINTER = """\
1 match site 0
  1.1 is Variant 9
    1.1.1 return rule 0 pos 1 result 4
2 match site 1
  2.1 is ConstInt -400 tenths = -40.0 degrees
    2.1.1 return rule 1 pos 2 result 3
3 match site 0
  3.1 is Variant 2
    3.1.1 return rule 2 pos 3 result 2
"""
NUMBERS = (0, 1, -1, 5, -5, 9, 10, -10, 85, -400, 2**31 - 1, -2**31)


def any_tree(random, left=DEEPEST):
    """Steps as words may have them, whether or not a book leads to them."""
    return tuple(Step(sites(random, 3), any_flow(random, left)) for _ in range(random.randrange(4)))


def any_flow(random, left):
    kind = random.randrange(3) if left else 2
    if kind == 0:
        return Match(a_site(random), tuple(any_arm(random, left) for _ in range(random.randrange(4))))
    if kind == 1:
        a = random.randrange(HIGHEST_ID)
        return Equal(a, random.randrange(a + 1, HIGHEST_ID + 1), any_tree(random, left - 1))
    return Return(a_site(random), random.choice((0, 7, 2**32 - 1)), a_site(random))


def any_arm(random, left):
    kind = random.choice((IS_INT, IS_PRIM, IS_VARIANT, IS_SOME))
    fields = {IS_VARIANT: random.randrange(5), IS_SOME: 1}.get(kind, 0)
    number = 0 if kind == IS_SOME else random.choice(NUMBERS)
    places = tuple(random.choice((EMPTY, a_site(random))) for _ in range(fields))
    return Arm(kind, fields, number, places, any_tree(random, left - 1))


def a_site(random):
    return random.choice((0, 1, 2, 9, 10, 99, 100, HIGHEST_ID))


def sites(random, most):
    return tuple(a_site(random) for _ in range(random.randrange(most)))


def deep_book():
    """252 sites, and 252 rules of eight tests each: as deep as trees are, with long let lists."""
    arguments = [Site(ARGUMENT)] * 12
    chain = [Site(EXPRESSION, (11 + k,)) for k in range(240)]
    pairs = ((4, 5), (6, 7), (8, 9), (10, 11))
    rules = [Rule(k, k, 251, four_limits(k), pairs, (250, 251)) for k in range(252)]
    return Book(tuple(arguments + chain), tuple(rules))


def four_limits(k):
    return tuple(Constraint(site, IS_INT, 0, -400 - k) for site in range(4))


def made_books(count):
    random = Random(SEED)
    makers = list(MAKERS.values())
    for k in range(count):
        book = makers[k % len(makers)](random)
        if refusal(bytes_of(book)) is None:
            yield book


class TheText(unittest.TestCase):
    def test_as_written_by_hand(self):
        wanted = {B: LISTING_OF_B, E: LISTING_OF_E, H: LISTING_OF_H, WINTER: LISTING_OF_WINTER}
        for book, text in wanted.items():
            self.assertEqual(listing(tree(book)), text)

    def test_empty_tree_has_no_text(self):
        self.assertEqual(listing(()), "")

    def test_degrees(self):
        pairs = {0: "0.0", 5: "0.5", -5: "-0.5", 85: "8.5", -400: "-40.0", -2**31: "-214748364.8"}
        for tenths, text in pairs.items():
            self.assertEqual(degrees(tenths), text)

    def test_the_special_tenths_rule_is_asked_before_the_general_one(self):
        text = listing(tree(WINTER))
        self.assertLess(text.index("rule 1"), text.index("rule 2"))

    def test_books_are_as_they_are_made(self):
        for name, book in BOOKS.items():
            self.assertEqual((ROOT / "books" / f"{name}.book").read_bytes(), bytes_of(book))

    def test_the_gate_asks_for_the_oil_book(self):
        crate = ROOT / "crates" / "lister"
        self.assertEqual((crate / "stdin").read_bytes(), bytes_of(OIL))
        self.assertEqual((crate / "stdout").read_text(), listing(tree(OIL)))


class NothingIsHidden(unittest.TestCase):
    def test_any_tree_is_read_back(self):
        random = Random(SEED)
        for _ in range(3000):
            steps = any_tree(random)
            self.assertEqual(tree_of(block_words(steps)), steps)
            self.assertEqual(tree_of_listing(listing(steps)), steps)

    def test_trees_of_books_are_read_back(self):
        for book in made_books(300):
            steps = tree(book)
            self.assertEqual(block_words(tree_of_listing(listing(steps))), block_words(steps))


@unittest.skipUnless(LISTER.is_file(), "crates/lister/out/lister does not stand")
class TheProgram(unittest.TestCase):
    def printed(self, data):
        return subprocess.run([LISTER], input=data, stdout=subprocess.PIPE, check=True).stdout.decode()

    def test_worked_books(self):
        for worked in WORKED:
            wanted = f"refused {worked.refused}\n" if worked.refused else listing(tree(worked.book))
            self.assertEqual(self.printed(bytes_of(worked.book)), wanted)

    def test_oil_books(self):
        for book in BOOKS.values():
            self.assertEqual(self.printed(bytes_of(book)), listing(tree(book)))

    def test_made_books(self):
        for book in made_books(300):
            self.assertEqual(self.printed(bytes_of(book)), listing(tree(book)))

    def test_the_deepest_book(self):
        data = bytes_of(deep_book())
        self.assertIsNone(refusal(data))
        self.assertEqual(self.printed(data), listing(tree(deep_book())))

    def test_too_long(self):
        self.assertEqual(self.printed(bytes(65_537)), "too long\n")


if __name__ == "__main__":
    if len(sys.argv) > 1:
        SEED = int(sys.argv.pop())
    unittest.main()
