"""Word lists that no book was planned for: trees with one word changed, and trees made by hand."""

from judge.words import HIGHEST_ID

EMPTY_PLACE, LARGEST_WORD = 65535, 2**32 - 1


def other_words(word):
    """What a word is changed into: its neighbours, and the limits of tags, ids, places and 32 bits."""
    others = {0, 1, word - 1, word + 1, HIGHEST_ID, HIGHEST_ID + 1, EMPTY_PLACE, 2**31, LARGEST_WORD}
    return sorted(other for other in others - {word} if 0 <= other <= LARGEST_WORD)


def every_damage(words):
    """Each word changed into each other one: its place, what it became, and the whole list."""
    for at, word in enumerate(words):
        for other in other_words(word):
            yield at, other, words[:at] + [other] + words[at + 1:]


def some_damage(words, rng):
    """One word changed."""
    at = rng.randrange(len(words))
    return words[:at] + [rng.choice(other_words(words[at]))] + words[at + 1:]


def one_step(*words):
    """A root block of one step, its length word made right."""
    return [1 + len(words), 1, *words]


def one_arm(kind, fields, number, places=None):
    """A root block that matches site 0 against one pattern and does nothing then."""
    places = [EMPTY_PLACE] * min(fields, 9) if places is None else places
    return one_step(0, 0, 0, 1, kind, fields, number, *places, 1, 0)


def nested(depth):
    """Equal steps one inside the other."""
    return [1, 0] if depth == 0 else one_step(0, 1, 0, 1, *nested(depth - 1))


# Word lists by hand, at the limits of what is a tree.
BY_HAND = {
    "empty-word-list": [],
    "length-but-no-step-count": [0],
    "step-count-missing": [1],
    "block-longer-than-the-list": [2, 0],
    "block-longer-than-its-steps": [2, 0, 0],
    "more-steps-than-stand-there": [6, 2, 0, 3, 0, 0, 0],
    "length-of-32-bits": [LARGEST_WORD, 0],
    "words-after-the-root": [1, 0, 77],
    "return": one_step(0, 3, 0, 0, 0),
    "tag-2": one_step(0, 2, 0, 0, 0),
    "tag-4": one_step(0, 4, 0, 0, 0),
    "rule-and-result-251": one_step(0, 3, 251, 0, 251),
    "rule-252": one_step(0, 3, 252, 0, 251),
    "result-252": one_step(0, 3, 0, 0, 252),
    "let-251": one_step(1, 251, 3, 0, 0, 0),
    "let-252": one_step(1, 252, 3, 0, 0, 0),
    "more-lets-than-words": one_step(9, 0, 3, 0, 0, 0),
    "equal-0-251": one_step(0, 1, 0, 251, 1, 0),
    "equal-0-252": one_step(0, 1, 0, 252, 1, 0),
    "equal-of-one-site": one_step(0, 1, 1, 1, 1, 0),
    "equal-of-falling-sites": one_step(0, 1, 1, 0, 1, 0),
    "match-of-251-with-no-arm": one_step(0, 0, 251, 0),
    "match-of-252-with-no-arm": one_step(0, 0, 252, 0),
    "more-arms-than-words": one_step(0, 0, 0, 9),
    "arm-of-four-places": one_arm(2, 4, 9),
    "arm-of-five-places": one_arm(2, 5, 9),
    "arm-of-kind-4": one_arm(4, 0, 0),
    "number-with-a-field": one_arm(0, 1, 0),
    "some-without-a-field": one_arm(3, 0, 0),
    "some-with-a-number": one_arm(3, 1, 1),
    "place-251": one_arm(3, 1, 0, [251]),
    "place-252": one_arm(3, 1, 0, [252]),
    "place-65534": one_arm(3, 1, 0, [65534]),
    "place-empty": one_arm(3, 1, 0, [EMPTY_PLACE]),
    "nesting-8": nested(8),
    "nesting-9": nested(9),
}
