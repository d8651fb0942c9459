"""The worked books of document 01 and the words it gives for them."""

from typing import NamedTuple

from judge.book import (
    ARGUMENT, CONST_INT, EXPRESSION, IS_INT, IS_VARIANT, MAKE_VARIANT, Book, Constraint, Rule, Site,
)


class Worked(NamedTuple):
    letter: str
    book: Book
    words: str  # as document 01 has them; empty where it gives none
    refused: int = 0


def variant(site, number, fields=0):
    return Constraint(site, IS_VARIANT, fields, number)


def integer(site, number):
    return Constraint(site, IS_INT, 0, number)


USUAL_SITES = (Site(ARGUMENT), Site(ARGUMENT), Site(CONST_INT))
SITES_OF_B = (Site(ARGUMENT), Site(CONST_INT), Site(CONST_INT))
SITES_OF_E = (Site(ARGUMENT), Site(EXPRESSION, (0,)), Site(EXPRESSION, (1,)), Site(MAKE_VARIANT))

A = Book((), ())
B = Book(SITES_OF_B, (Rule(10, 100, 1, (variant(0, 1),)), Rule(0, 200, 2)))
C = Book(SITES_OF_B, (Rule(0, 100, 1, (variant(0, 1),)), Rule(10, 200, 2)))
D = Book(USUAL_SITES, (Rule(0, 5, 2, pairs=((1, 0),)),))
E = Book(SITES_OF_E, (Rule(0, 9, 3, (integer(2, 7),)),))
F = Book(USUAL_SITES, (Rule(10, 1, 2, (variant(0, 1),)), Rule(0, 2, 2, (variant(1, 1),))))
H = Book(USUAL_SITES, (Rule(0, 1, 2, (integer(0, 85),)), Rule(0, 2, 2, (integer(0, -400),))))
I = Book(USUAL_SITES, (Rule(0, 1, 2, (variant(0, 1),), ((0, 1),)),))

WORKED = (
    Worked("A", A, "1 0"),
    Worked("B", B, "20 2 0 0 0 1 2 0 1 6 1 0 3 0 100 1 0 3 1 200 2"),
    Worked("C", C, "11 2 0 3 1 200 2 0 3 0 100 1"),
    Worked("D", D, "12 1 0 1 0 1 6 1 0 3 0 5 2"),
    Worked("E", E, "17 1 2 1 2 0 2 1 0 0 7 6 1 0 3 0 9 3"),
    Worked("F", F, "29 2 0 0 0 1 2 0 1 6 1 0 3 0 1 2 0 0 1 1 2 0 1 6 1 0 3 1 2 2"),
    # document 01 says of H that arm -400 comes first and that its word is 4294966896
    Worked("H", H, "25 1 0 0 0 2 0 0 4294966896 6 1 0 3 1 2 2 0 0 85 6 1 0 3 0 1 2"),
    Worked("I", I, "", refused=7),
)

# Book J: merges, then questions and what they answer.
J_CALLS = (
    ("merge", 1, 2), ("merge", 1, 3), ("merge", 2, 4), ("find", 3), ("find", 4), ("same", 3, 4),
    ("remove", 4), ("remove", 1),
)
J_ANSWERS = (None, None, None, 1, 1, True, (1, 2, 3, 4), ())
