#!/usr/bin/env python3
"""Tests of the judge and of what makes and compares books. No Rust is needed: python3 oracle/tests.py"""

import os
import sys
import unittest
from pathlib import Path
from random import Random

import programs
from books import readings as made
from books.given import nested, one_arm, one_step
from books.refused import every_fault, two_faults
from books.styles import MAKERS
from books.worked import B, D, I, J_ANSWERS, J_CALLS, WORKED
from books.write import bytes_of, mended
from caselists import RICH
from casefile import Case, cases_of, file_bytes
from comparison import Comparison, asked_book, judge_sets, replay_cases
from faults import FAULTS
from judge import sets
from judge.book import book_of, refusal
from judge.plan import Planner, tree
from judge.walk import Reading, answer_is_right, walk
from judge.words import NoTree, block_words, plan, tree_of
from shrink import smallest

HERE = Path(__file__).parent
LISTS = HERE.parent / "crates" / "replay" / "data"
NO_SITES = Reading((), (), ())
ONE_SITE = Reading((0,), (0,), (0,))
TWO_SITES = Reading((0, 0), (0, 0), (1, 1))
JUDGE_AS_PROGRAM = ["env", f"PYTHONPATH={HERE}", sys.executable, "-m", "judge"]


def words_of(book):
    return block_words(tree(book))


class WorkedBooks(unittest.TestCase):
    def test_words_as_document_01_gives_them(self):
        for worked in WORKED:
            if worked.words:
                self.assertEqual(" ".join(map(str, words_of(worked.book))), worked.words)

    def test_book_i_is_refused(self):
        self.assertEqual(refusal(bytes_of(I)), 7)

    def test_book_g_one_word_short_leaves_zeros(self):
        self.assertEqual(plan(bytes_of(B), [9] * 20), (("refused", 9), [0] * 20))

    def test_book_g_exactly_full(self):
        answer, room = plan(bytes_of(B), [9] * 21)
        self.assertEqual((answer, room), (("words", 21), words_of(B)))

    def test_room_beyond_the_tree_stays(self):
        self.assertEqual(plan(bytes_of(B), [9] * 23)[1][21:], [9, 9])

    def test_refused_book_leaves_the_room(self):
        self.assertEqual(plan(bytes_of(I), [9, 8]), (("refused", 7), [9, 8]))

    def test_book_j(self):
        self.assertEqual(judge_sets(J_CALLS)[0], list(J_ANSWERS))


class Refusals(unittest.TestCase):
    def test_every_planted_fault_gets_its_number(self):
        for book in (RICH, MAKERS["nested-seven"](Random("refusals")), MAKERS["dense"](Random(4))):
            for fault in every_fault(book):
                self.assertEqual(refusal(fault.data), fault.number, fault.label)

    def test_lowest_of_two_faults_wins(self):
        rng = Random("two")
        for _ in range(200):
            fault = two_faults(RICH, rng)
            self.assertEqual(refusal(fault.data), fault.number, fault.label)

    def test_each_number_is_planted(self):
        self.assertEqual({fault.number for fault in every_fault(RICH)}, set(range(1, 9)))

    def test_block_sum_wraps(self):
        data = bytearray(bytes_of(B))
        data[1024 + 4 + 4:1024 + 4 + 8] = b"\xff" * 4  # rule 0's pos
        self.assertIsNone(refusal(mended(data)))


class WordsThatAreNoTree(unittest.TestCase):
    def refused(self, words):
        self.assertEqual(walk(words, NO_SITES), ("refused", 11), words)

    def test_empty_list(self):
        self.refused([])

    def test_lengths(self):
        self.refused([0])
        self.refused([1])
        self.refused([2, 0])
        self.refused([2, 0, 0])
        self.refused([6, 2, 0, 3, 0, 0, 0])
        self.refused([2**32 - 1, 0])

    def test_words_after_the_root_are_ignored(self):
        self.assertEqual(walk([1, 0, 77], NO_SITES), ("nothing",))

    def test_tags(self):
        self.assertEqual(walk(one_step(0, 3, 0, 0, 0), ONE_SITE), ("found", 0, 0))
        for tag in (2, 4, 2**32 - 1):
            self.refused(one_step(0, tag, 0, 0, 0))

    def test_ids_and_rules_above_251(self):
        for good in ((0, 3, 251, 0, 251), (1, 251, 3, 0, 0, 0), (0, 1, 0, 251, 1, 0), (0, 0, 251, 0)):
            self.assertEqual(walk(one_step(*good), NO_SITES), ("refused", 12), good)
        for wrong in ((0, 3, 252, 0, 251), (0, 3, 0, 0, 252), (1, 252, 3, 0, 0, 0),
                      (0, 1, 0, 252, 1, 0), (0, 0, 252, 0)):
            self.refused(one_step(*wrong))

    def test_a_not_below_b(self):
        self.assertEqual(walk(one_step(0, 1, 0, 1, 1, 0), TWO_SITES), ("nothing",))
        self.refused(one_step(0, 1, 1, 1, 1, 0))
        self.refused(one_step(0, 1, 1, 0, 1, 0))

    def test_patterns_that_no_rule_record_holds(self):
        for kind, fields, number in ((0, 0, 9), (1, 0, 2**32 - 1), (2, 0, 9), (2, 4, 9), (3, 1, 0)):
            self.assertEqual(walk(one_arm(kind, fields, number), ONE_SITE), ("nothing",))
        for kind, fields, number in ((4, 0, 0), (0, 1, 0), (1, 1, 0), (2, 5, 0), (3, 0, 0), (3, 2, 0),
                                     (3, 1, 1), (2**32 - 1, 0, 0), (2, 2**32 - 1, 0)):
            self.refused(one_arm(kind, fields, number))

    def test_places(self):
        for place, answer in ((65535, ("nothing",)), (0, ("nothing",)), (251, ("refused", 12))):
            self.assertEqual(walk(one_arm(3, 1, 0, [place]), ONE_SITE), answer)
        for place in (252, 65534, 65536):
            self.refused(one_arm(3, 1, 0, [place]))

    def test_nesting(self):
        self.assertEqual(walk(nested(8), TWO_SITES), ("nothing",))
        self.refused(nested(9))

    def test_any_word_changed_gives_11_or_a_tree_of_these_words(self):
        rng = Random("words")
        for style in ("mixed", "pair-heavy", "nested-seven"):
            words = words_of(MAKERS[style](rng))
            for at in range(len(words)):
                other = words[:at] + [rng.choice((0, 1, 2, 3, 251, 252, 65535, 2**32 - 1))] + words[at + 1:]
                try:
                    again = block_words(tree_of(other))
                except NoTree:
                    continue
                self.assertEqual(again, other[:len(again)])


class Walks(unittest.TestCase):
    def test_10_before_11_before_12(self):
        words = words_of(D)
        self.assertEqual(walk([], Reading((0,), (), ())), ("refused", 10))
        self.assertEqual(walk([], NO_SITES), ("refused", 11))
        self.assertEqual(walk(words, NO_SITES), ("refused", 12))
        self.assertEqual(walk(words, TWO_SITES), ("refused", 12))

    def test_a_reading_of_all_sites_obeys_demand_3(self):
        rng = Random("walks")
        for style in ("mixed", "dense", "pairs-few-sites"):
            book = MAKERS[style](rng)
            for _ in range(20):
                reading = made.some_reading(book, rng)
                self.assertTrue(answer_is_right(book, reading, walk(words_of(book), reading)))

    def test_answer_is_right_can_say_no(self):
        suits = Reading((2, 0, 0), (1, 0, 0), (0, 0, 0))
        self.assertTrue(answer_is_right(B, suits, ("found", 0, 1)))
        for wrong in (("found", 1, 2), ("found", 0, 2), ("nothing",)):
            self.assertFalse(answer_is_right(B, suits, wrong))


class SetCalls(unittest.TestCase):
    def test_refusals_leave_the_store(self):
        _, store = sets.merge(sets.EMPTY, 1, 251)
        for call in (lambda: sets.merge(store, 3, 3), lambda: sets.merge(store, 0, 252),
                     lambda: sets.find(store, 252), lambda: sets.in_same_set(store, 252, 1),
                     lambda: sets.remove_set_of(store, 300)):
            self.assertEqual(call(), (("refused", 16), store))

    def test_unmerged_id(self):
        self.assertEqual(sets.find(sets.EMPTY, 5), (None, ()))
        self.assertEqual(sets.in_same_set(sets.EMPTY, 5, 5), (False, ()))

    def test_greater_rank_keeps_its_root(self):
        answers, store = judge_sets((("merge", 1, 2), ("merge", 9, 1)))
        self.assertEqual((answers, store[0].representative, store[0].rank), ([None, None], 1, 1))


class Makers(unittest.TestCase):
    def test_every_style_is_accepted_and_comes_again(self):
        for style, make in MAKERS.items():
            book = make(Random(f"{style}"))
            self.assertIsNone(refusal(bytes_of(book)), style)
            self.assertEqual(book, make(Random(f"{style}")), style)
            self.assertEqual(book_of(bytes_of(book)), book, style)

    def test_a_seed_gives_the_same_books(self):
        self.assertEqual([asked_book(5, k) for k in range(30)], [asked_book(5, k) for k in range(30)])
        self.assertNotEqual(asked_book(5, 0), asked_book(6, 0))

    def test_shrinking_keeps_what_fails(self):
        book = MAKERS["dense"](Random("shrink"))
        winter = FAULTS["winter"]
        small = smallest(book, lambda one: Planner(one).tree() != winter(one).tree())
        self.assertNotEqual(Planner(small).tree(), winter(small).tree())
        self.assertLessEqual((len(small.sites), len(small.rules)), (2, 2))

    def test_every_planted_fault_changes_some_tree(self):
        missed = dict(FAULTS)
        for number in range(400):
            asked = asked_book("faults", number)
            if refusal(asked.data) is None:
                book = book_of(asked.data)
                right = Planner(book).tree()
                missed = {name: fault for name, fault in missed.items() if fault(book).tree() == right}
        self.assertEqual(missed, {})


class CaseFiles(unittest.TestCase):
    def test_what_is_written_is_read(self):
        cases = [case for k in range(20) for case in some_cases(k)]
        self.assertEqual(cases_of(file_bytes(cases)), [
            case._replace(name=f"case {k}") for k, case in enumerate(cases)])

    def test_the_checked_in_lists_are_as_the_judge_says(self):
        replay = [sys.executable, str(HERE / "replay")]
        for path in sorted(LISTS.glob("*.case")):
            self.assertIsNone(programs.replay_differs(replay, cases_of(path.read_bytes())))

    def test_the_checked_in_lists_cover_every_answer(self):
        cases = [case for path in LISTS.glob("*.case") for case in cases_of(path.read_bytes())]
        answers = [case.answer for case in cases if case.data is not None]
        refused = {answer[1] for answer in answers if answer[0] == "refused"}
        walked = {answer[:1] + answer[1:2] * (answer[0] == "refused")
                  for case in cases for _, answer in case.readings}
        self.assertEqual(refused, set(range(1, 10)))
        self.assertEqual(walked, {("found",), ("nothing",), ("refused", 10), ("refused", 11), ("refused", 12)})

    def test_every_case_has_a_name(self):
        for path in LISTS.glob("*.case"):
            names = path.with_suffix(".txt").read_text().splitlines()
            self.assertEqual(len(names), len(cases_of(path.read_bytes())))
            self.assertEqual(len({name.split(" ", 1)[1] for name in names}), len(names), path)

    def test_a_wrong_word_a_wrong_room_and_a_wrong_walk_are_seen(self):
        planned = [case for case in some_cases(0) if case.data is not None]
        right = next(case for case in planned if case.answer == ("words", len(case.room) - 7))
        reading, answer = right.readings[0]
        self.assertNotEqual(answer, ("nothing",))
        words, count = right.room, right.answer[1]
        wrong = {
            "another answer": right._replace(answer=("words", count + 1)),
            "a refusal": right._replace(answer=("refused", 9)),
            "a word of the tree": right._replace(room=words[:3] + [words[3] + 1] + words[4:]),
            "a word behind the tree": right._replace(room=words[:-1] + [0]),
            "a walk": right._replace(readings=[(reading, ("nothing",))]),
            "a walk of given words": Case("", None, None, words, [(reading, ("refused", 11))]),
        }
        for replay in replays():
            self.assertIsNone(programs.replay_differs(replay, [right]))
            for name, case in wrong.items():
                self.assertIsNotNone(programs.replay_differs(replay, [right, case, right]), (name, replay))

    def test_a_cut_file_agrees_with_nothing(self):
        cases = some_cases(0)
        raw = file_bytes(cases)
        agreed = f"cases {len(cases)} readings {sum(len(case.readings) for case in cases)} differ 0"
        for replay in replays():
            self.assertIsNone(programs.printed_differs(replay, raw, agreed))
            for end in (0, 3, 12, 13, 600, len(raw) - 1):
                self.assertIsNotNone(programs.printed_differs(replay, raw[:end], agreed))


def some_cases(number):
    return replay_cases(Comparison(None).judged(asked_book("cases", number), Random(number)))


def replays():
    """The judge's replay, and the command that REPLAY names; one that was built earlier is not asked."""
    named = programs.command("REPLAY", "replay") if "REPLAY" in os.environ else None
    return [[sys.executable, str(HERE / "replay")]] + ([named] if named else [])


class Programs(unittest.TestCase):
    def test_the_judge_as_a_program_agrees(self):
        for book in (B, I):
            answer, room = plan(bytes_of(book), [0] * 99)
            words = room[:answer[1]]
            self.assertIsNone(programs.planner_differs(JUDGE_AS_PROGRAM, bytes_of(book), answer, words))

    def test_another_print_is_seen(self):
        answer, room = plan(bytes_of(B), [0] * 21)
        for printed in ("words 21", "refused 7", ""):
            self.assertIsNotNone(programs.planner_differs(["echo", printed], bytes_of(B), answer, room))

    def test_limits_of_the_program(self):
        self.assertEqual(programs.wanted_of_planner(bytes(65_537), ("refused", 1), []), "too long")
        self.assertEqual(programs.wanted_of_planner(b"", ("words", 16_385), []), "refused 9")

    def test_a_command_is_named_or_found(self):
        os.environ["SOME_PLANNER"] = "a b"
        self.assertEqual(programs.command("SOME_PLANNER", "planner"), ["a", "b"])
        os.environ["SOME_PLANNER"] = ""
        self.assertIsNone(programs.command("SOME_PLANNER", "planner"))


if __name__ == "__main__":
    unittest.main()
