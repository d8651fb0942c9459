"""Case files: books with the answers that they have to give, replayed where no Rust is at hand.

Little-endian, and every list behind its length:

    file     "CASE", word version (2), word number of cases, cases
    case     bytes of book; word answer (a word count, or 0x80000000 + refusal);
             words of the whole room after the call; word number of readings, readings
    reading  bytes of kinds; signed numbers; words of identities;
             word answer (0 found, 1 nothing, or 0x80000000 + refusal), word rule, word result

The room has as many words before the call as after it, each of them 0xA5A5A5A5. A reading is walked
over the room. Where nothing is found, rule and result are 65535. A book of length 0xFFFFFFFF stands
for no book: nothing is planned, the answer is 0, and the room is walked as it stands in the file.
"""

from struct import pack, unpack_from
from typing import NamedTuple

from judge.walk import Reading

FRESH_WORD = 0xA5A5A5A5  # every room word before the call
REFUSED_BIT = 0x80000000
NONE = 65535  # rule and result where there is none
WALKED = ("found", "nothing")
NO_BOOK = 0xFFFFFFFF  # in place of the book's length
VERSION = 2


class Case(NamedTuple):
    name: str  # not in the file: the list of names stands beside it
    data: bytes  # None where nothing is planned
    answer: tuple  # None where nothing is planned
    room: list  # the whole room after the call
    readings: list  # of (Reading, answer)


def fresh_room(length):
    return [FRESH_WORD] * length


def file_bytes(cases):
    return pack("<4sII", b"CASE", VERSION, len(cases)) + b"".join(map(case_bytes, cases))


def case_bytes(case):
    planned = number(NO_BOOK) + number(0)
    if case.data is not None:
        planned = sized(case.data, len(case.data)) + number(answer_word(case.answer))
    readings = b"".join(reading_bytes(*one) for one in case.readings)
    return planned + sized(words_bytes(case.room), len(case.room)) + sized(readings, len(case.readings))


def reading_bytes(reading, answer):
    kinds, numbers, identities = reading
    rule, result = answer[1:] if answer[0] == "found" else (NONE, NONE)
    return b"".join((
        sized(bytes(kinds), len(kinds)), sized(pack(f"<{len(numbers)}i", *numbers), len(numbers)),
        sized(words_bytes(identities), len(identities)), number(walk_word(answer)),
        number(rule), number(result)))


def answer_word(answer):
    """A word count, or the refusal with the highest bit set."""
    return answer[1] if answer[0] == "words" else REFUSED_BIT + answer[1]


def walk_word(answer):
    """0 found, 1 nothing, or the refusal with the highest bit set."""
    return REFUSED_BIT + answer[1] if answer[0] == "refused" else WALKED.index(answer[0])


def sized(raw, count):
    return number(count) + raw


def number(value):
    return pack("<I", value)


def words_bytes(words):
    return pack(f"<{len(words)}I", *words)


# Reading a file back

class Cursor:
    def __init__(self, raw):
        self.raw = raw
        self.at = 0

    def take(self, form):
        """So many values of one struct letter: `take("5I")`."""
        values = unpack_from("<" + form, self.raw, self.at)
        self.at += len(pack("<" + form, *values))
        return values

    def number(self):
        return self.take("I")[0]

    def bytes(self, size):
        self.at += size
        return self.raw[self.at - size:self.at]


def cases_of(raw):
    cursor = Cursor(raw)
    assert cursor.take("4sI") == (b"CASE", VERSION)
    cases = [read_case(cursor, f"case {k}") for k in range(cursor.number())]
    assert cursor.at == len(raw)
    return cases


def read_case(cursor, name):
    size = cursor.number()
    data = None if size == NO_BOOK else cursor.bytes(size)
    answer = read_answer(cursor.number(), data)
    room = list(cursor.take(f"{cursor.number()}I"))
    readings = [read_reading(cursor) for _ in range(cursor.number())]
    return Case(name, data, answer, room, readings)


def read_answer(word, data):
    if data is None:
        return None
    return ("refused", word - REFUSED_BIT) if word >= REFUSED_BIT else ("words", word)


def read_reading(cursor):
    kinds = tuple(cursor.bytes(cursor.number()))
    numbers = cursor.take(f"{cursor.number()}i")
    identities = cursor.take(f"{cursor.number()}I")
    word, rule, result = cursor.take("3I")
    known = {0: ("found", rule, result), 1: ("nothing",)}
    return Reading(kinds, numbers, identities), known.get(word, ("refused", word - REFUSED_BIT))
