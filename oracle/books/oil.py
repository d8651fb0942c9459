"""Oil books, as a lift has them: two kinds of boards, and the winter fault. `python3 -m books.oil` in
oracle/ writes them to books/. Oil limits are in tenths of a degree."""

from pathlib import Path

from judge.book import (
    ARGUMENT, BOUND_BY_PATTERN, CONST_INT, EXPRESSION, IS_INT, IS_VARIANT, Book, Constraint, Rule, Site,
)

from .write import bytes_of

# The board's message is Variant 1 with tenths, or Variant 2 with whole degrees, worked out to tenths.
MESSAGE, TENTHS, WHOLE, FROM_WHOLE = 0, 1, 2, 3
HEAT, SLOW, STOP, RUN = 4, 5, 6, 7
FIRST_SENDER, SECOND_SENDER = 8, 9
OIL_SITES = (
    Site(ARGUMENT),
    Site(BOUND_BY_PATTERN, (MESSAGE,), IS_VARIANT, 0, 1),
    Site(BOUND_BY_PATTERN, (MESSAGE,), IS_VARIANT, 0, 2),
    Site(EXPRESSION, (WHOLE,)),
    Site(CONST_INT), Site(CONST_INT), Site(CONST_INT), Site(CONST_INT),
    Site(ARGUMENT), Site(ARGUMENT),
)
SENDS_TENTHS = Constraint(MESSAGE, IS_VARIANT, 1, 1)
SENDS_WHOLE = Constraint(MESSAGE, IS_VARIANT, 1, 2)


def limit(site, tenths):
    return Constraint(site, IS_INT, 0, tenths)


OIL = Book(OIL_SITES, (
    Rule(50, 10, STOP, pairs=((FIRST_SENDER, SECOND_SENDER),)),  # one sender wired twice
    Rule(30, 20, HEAT, (SENDS_TENTHS, limit(TENTHS, -400))),
    Rule(30, 21, SLOW, (SENDS_TENTHS, limit(TENTHS, 85))),
    Rule(30, 30, HEAT, (SENDS_WHOLE, limit(FROM_WHOLE, -400))),
    Rule(10, 40, RUN, (SENDS_TENTHS,)),
    Rule(10, 41, RUN, (SENDS_WHOLE,)),
    Rule(0, 50, STOP),
))

# The winter fault: rule 1, the special one on tenths, stands above rule 2, the general one on the board,
# and rule 0 above both. Rules 0 and 2 ask the same site; a planner that takes both at once asks rule 2
# before rule 1.
BOARD, OIL_TENTHS, GENERAL_RUN, SPECIAL_HEAT, ALARM_STOP = 0, 1, 2, 3, 4
WINTER = Book(
    (Site(ARGUMENT), Site(ARGUMENT), Site(CONST_INT), Site(CONST_INT), Site(CONST_INT)),
    (
        Rule(10, 1, ALARM_STOP, (Constraint(BOARD, IS_VARIANT, 0, 9),)),
        Rule(5, 2, SPECIAL_HEAT, (limit(OIL_TENTHS, -400),)),
        Rule(0, 3, GENERAL_RUN, (Constraint(BOARD, IS_VARIANT, 0, 2),)),
    ),
)

BOOKS = {"oil": OIL, "winter": WINTER}

if __name__ == "__main__":
    folder = Path(__file__).parent.parent.parent / "books"
    for name, book in BOOKS.items():
        (folder / f"{name}.book").write_bytes(bytes_of(book))
