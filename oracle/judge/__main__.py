"""Document 01's program, as the judge sees it: a book on standard input, two lines or one out."""

import sys

from .words import plan

LONGEST, ROOM_WORDS = 65_536, 16_384


def main():
    data = sys.stdin.buffer.read(LONGEST + 1)
    if len(data) > LONGEST:
        print("too long")
        return
    (answer, number), room = plan(data, [0] * ROOM_WORDS)
    print(answer, number)
    if answer == "words":
        print(*room[:number])


main()
