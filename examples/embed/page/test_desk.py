"""Tests of the desk and of the trees, over the built library, for unittest or pytest."""
import os
import random
import sys
import unittest

HERE = os.path.dirname(os.path.abspath(__file__))
sys.path[:0] = [HERE, os.path.dirname(HERE)]

from desk import Change, Desk, plain, together  # noqa: E402
from treedoc import Status  # noqa: E402

FAMILY = "\U0001f468\u200d\U0001f469\u200d\U0001f467"


def changed(text, changes):
    """The text that these changes make of a text."""
    for at, cut, put, _ in changes:
        text = text[:at] + put + text[at:][cut:]
    return text


class Editing(unittest.TestCase):
    def setUp(self):
        self.desk = Desk(3, random.Random(5))
        self.addCleanup(self.desk.close)
        self.editors = self.desk.editors

    def write(self, site, *steps):
        editor = self.editors[site]
        return editor.write(editor.version(), steps, f"by {site}")

    def texts(self):
        return [it.screen.text() for it in self.editors.values()]

    def agree(self):
        """All editors have one text, on the screen, in the session, in the tree, and by the changes that were told."""
        self.desk.deliver()
        [text] = set(self.texts())
        for it in self.editors.values():
            self.assertEqual([it.session.text(), it.rows.text(), changed("", it.changes), it.screen.size],
                             [text, text, text, len(text)])
            self.assertEqual(changed("", together(it.changes)), text)
            self.assertEqual(len(it.session), len(it.screen.atoms))
            self.assertEqual((it.session.holds(), it.session.waiting(), it.proposal), (0, 0, None))
        self.assertEqual(len({tuple(it.rows.lines()) for it in self.editors.values()}), 1)
        return text

    def test_what_is_written_is_one_change_and_comes_to_all(self):
        self.assertEqual(self.write(1, (0, 0, "tea milk"), (3, 0, ","), (5, 4, "rum")), Status.MADE)
        self.assertEqual(self.editors[1].changes, [
            Change(0, 0, "tea milk", "by 1"), Change(3, 0, ",", "by 1"), Change(5, 4, "rum", "by 1")])
        self.assertEqual(self.agree(), "tea, rum")
        self.assertEqual(self.write(2, (0, 8, "")), Status.MADE)
        self.assertEqual(self.agree(), "")

    def test_an_edit_of_another_text_is_not_made(self):
        self.write(1, (0, 0, "tea"))
        self.assertIsNone(self.editors[1].write(0, [(0, 3, "")], "x"))
        for at, cut in ((4, 0), (0, 4), (3, 1), (-1, 1), (2, -1)):
            with self.assertRaises(ValueError):
                self.write(1, (at, cut, "x"))
        self.assertEqual(self.agree(), "tea")

    def test_an_atom_is_never_parted(self):
        self.write(1, (0, 0, f"ae\u0301{FAMILY}z"))
        self.assertEqual(self.editors[1].screen.atoms, ["a", "e\u0301", FAMILY, "z"])
        # a part of an atom goes; something comes into the middle of one; a stretch ends within one
        self.write(1, (2, 1, ""), (3, 0, "-"), (0, 3, "b"))
        self.assertEqual(self.agree(), f"b-{FAMILY[1:]}z")
        self.assertEqual([it.by for it in self.editors[1].changes], ["by 1"] * 4)

    def test_what_is_too_long_for_an_atom_is_taken_all_the_same(self):
        long = "e" + "\u0301" * 40
        self.assertEqual(self.write(1, (0, 0, f"a{long}b")), Status.MADE)
        self.assertEqual(self.agree(), f"a{long}b")

    def test_a_text_is_plain(self):
        self.assertEqual(plain("a\r\nb\rc\nd"), "a\nb\nc\nd")
        self.assertEqual(plain("\ud83d\ude00 \ud83d."), "\U0001f600 \ufffd.")
        self.write(1, (0, 0, "\ud83dx\r\ny"))
        self.assertEqual(self.agree(), "\ufffdx\ny")

    def test_one_that_is_cut_off_catches_up(self):
        self.write(1, (0, 0, "tea milk"))
        self.agree()
        self.desk.join(2, False)
        self.write(1, (3, 0, ","))
        self.write(2, (8, 0, "?"))
        self.write(3, (4, 4, "rum"))
        self.desk.deliver()
        self.assertEqual(self.texts(), ["tea, rum", "tea milk?", "tea, rum"])
        self.assertEqual((self.desk.to_go(2), self.desk.to_come(2), self.desk.to_come(1)), (2, 1 + 5, 1))
        self.desk.join(2, True)
        self.assertEqual(self.agree(), "tea, rum?")

    def test_a_flatten_is_decided_by_all(self):
        self.write(1, *((i, 0, letter) for i, letter in enumerate("abcdefgh")), (7, 1, ""))
        self.agree()
        self.assertEqual(len(self.editors[2].rows), 8)
        self.assertEqual(self.editors[2].flatten(), Status.MADE)
        self.assertEqual(self.agree(), "abcdefg")
        self.assertEqual([[row.atom, depth] for row, depth in self.editors[3].rows.in_order()],
                         [["a", 3], ["b", 2], ["c", 3], ["d", 1], ["e", 3], ["f", 2], ["g", 3]])

    def test_a_flatten_holds_until_it_is_given_up(self):
        self.write(1, (0, 0, "abc"))
        self.agree()
        self.desk.join(3, False)
        self.assertEqual(self.editors[1].cancel(), Status.NOT_OPEN)
        self.assertEqual(self.editors[1].flatten(), Status.MADE)
        self.desk.deliver()
        before = self.editors[2].version()
        self.assertEqual([self.write(it, (1, 1, "x")) for it in (1, 2, 3)], [Status.HELD, Status.HELD, Status.MADE])
        self.assertEqual((self.editors[2].version(), self.editors[1].flatten()), (before, Status.HELD))
        self.assertEqual(self.editors[1].cancel(), Status.CANCELLED)
        self.assertIsNone(self.editors[1].proposal)
        self.desk.deliver()
        self.assertEqual(self.write(2, (3, 0, "d")), Status.MADE)
        self.desk.join(3, True)
        self.assertEqual(self.agree(), "axcd")

    def test_packets_are_handed_on_a_few_at_a_time(self):
        self.write(1, *((i, 0, "x") for i in range(5)))
        self.assertEqual([self.desk.deliver(4) for _ in range(4)], [4, 4, 2, 0])

    def test_changes_that_go_on_from_one_another_are_told_as_one(self):
        changes = [Change(0, 0, "te"), Change(2, 0, "a"), Change(2, 1, ""), Change(1, 1, ""), Change(0, 1, ""),
                   Change(0, 0, "x", "me"), Change(1, 0, "y"), Change(2, 0, "z")]
        self.assertEqual(together(changes), [
            Change(0, 0, "tea"), Change(0, 3, ""), Change(0, 0, "x", "me"), Change(1, 0, "yz")])

    def test_editors_that_do_this_and_that_come_to_one_text(self):
        chance = random.Random(23)
        pieces = ("a", "b", "\n", "e\u0301", "\u0301", FAMILY, "\U0001f600", "\u200d", "some words", "x" * 200)
        for _ in range(1200):
            site = chance.randrange(1, 4)
            editor, what = self.editors[site], chance.random()
            if what < 0.85:
                at = chance.randint(0, editor.screen.size)
                cut = chance.choice((0, 0, 0, 1, 2, 30))
                put = chance.choice(pieces) if chance.random() < 0.7 else ""
                status = self.write(site, (at, min(cut, editor.screen.size - at), put))
                self.assertIn(status, (Status.MADE, Status.HELD))
            elif what < 0.92:
                self.desk.join(site, not editor.is_joined)
            elif what < 0.95:
                editor.flatten()
            elif what < 0.97:
                editor.cancel()
            self.desk.deliver(chance.choice((0, 1, 5)))
        for site in self.editors:
            self.desk.join(site, True)
        self.assertGreater(len(self.agree()), 100)


if __name__ == "__main__":
    unittest.main()
