"""Each call of the Python module once, and each kind of refusal that it names: run by ffi/test."""
import ctypes
import random
import unittest

import textpeer
from textpeer import Change, Cursor, Editor
from textpeer._library import FlatSplice, library

TEXT, OTHER, ANN, BEN = bytes(16), bytes([9]) * 16, bytes([1]) * 16, bytes([2]) * 16


class Calls(unittest.TestCase):
    def setUp(self):
        self.ann, self.ben = Editor(TEXT, ANN), Editor(TEXT, BEN)

    def test_text(self):
        ann = self.ann
        self.assertEqual((ann.identifier, len(ann), ann.text(), ann.heads(), ann.change_count()), (TEXT, 0, "", [], 0))
        self.assertTrue(ann)
        first = ann.edit(0, 0, "h\u00e9 \u20ac \U0001f600")
        self.assertEqual((ann.text(), len(ann)), ("h\u00e9 \u20ac \U0001f600", 6))
        second = ann.edit(1, 1, "e")
        self.assertEqual((ann.text(), ann.heads(), ann.change_count()), ("he \u20ac \U0001f600", [second], 2))
        self.assertNotEqual(first, second)
        self.assertIsNone(ann.edit(0, 0, ""))

    def test_edit_many(self):
        ann = self.ann
        ann.edit(0, 0, "a b c")
        made = ann.edit_many([(0, 1, "\u20ac"), (2, 1, ""), (2, 0, "xy"), (5, 0, "!")], time=7, message="four")
        self.assertEqual((ann.text(), ann.heads(), ann.change_count()), ("\u20ac xy !c", [made], 2))
        self.assertIsNone(ann.edit_many([]))
        self.assertIsNone(ann.edit_many([(7, 0, ""), (0, 0, "")]))
        with self.assertRaises(textpeer.OutOfRange):
            ann.edit_many([(0, 7, "ab"), (3, 0, "x")])
        with self.assertRaises(textpeer.TooManyOps):
            ann.edit_many([(0, 0, "x" * 32768), (0, 0, "y" * 32769)])
        self.assertEqual((ann.text(), ann.change_count()), ("\u20ac xy !c", 2))
        ann.edit_many([(0, 0, "x" * 32768), (0, 32768, "")])
        self.assertEqual((ann.text(), ann.change_count()), ("\u20ac xy !c", 3))

    def test_edit_many_anywhere(self):
        draw, text = random.Random(7), ""
        for number in range(60):
            splices, order = [], number % 3
            for at in range(20):
                # Rising, falling, or anywhere.
                at = min(3 * at, len(text)) if order == 0 else max(0, len(text) - 3 * at) if order == 1 else draw.randint(0, len(text))
                delete = draw.randint(0, min(3, len(text) - at))
                inserted = "".join(draw.choice("ab\u00e9\u20ac\U0001f600") for _ in range(draw.randint(0, 3)))
                splices.append((at, delete, inserted))
                text = text[:at] + inserted + text[at + delete:]
            self.ann.edit_many(splices)
            self.assertEqual(self.ann.text(), text)
        self.ben.merge(self.ann)
        self.assertEqual(self.ben.text(), text)

    def test_splices_of_other_lengths(self):
        given = (FlatSplice * 2)((0, 0, 1), (0, 0, 3))
        for texts, message, refusal in ((b"abc", b"", textpeer.BadLengths), (b"abcde", b"", textpeer.BadLengths),
                                        (b"", b"", textpeer.BadLengths), (b"\xe2\x82\xac!", b"", textpeer.BadText),
                                        (b"abc", b"\xff", textpeer.BadText)):
            with self.assertRaises(refusal):
                self.ann._answer(library.tp_edit_many, ANN, given, 2, texts, len(texts), 0, message, len(message))
        self.assertEqual(self.ann.change_count(), 0)
        self.ann._answer(library.tp_edit_many, ANN, given, 2, b"!\xe2\x82\xac", 4, 0, b"", 0)
        self.assertEqual(self.ann.text(), "\u20ac!")

    def test_cursor(self):
        ann = self.ann
        ann.edit(0, 0, "abc")
        cursor = ann.cursor(1)
        self.assertEqual(cursor, Cursor(2, ANN))
        ann.edit(0, 0, "more ")
        self.assertEqual(ann.position(cursor), 6)
        ann.edit(6, 1, "")
        self.assertEqual(ann.position(cursor), 6)
        with self.assertRaises(textpeer.OutOfRange):
            ann.cursor(7)
        with self.assertRaises(textpeer.UnknownElement):
            ann.position((99, BEN))

    def test_changes_in_any_order(self):
        for text in "one", "two", "three":
            self.ann.edit(0, 0, text)
        first, second, third = (self.ann.change_bytes(i) for i in range(3))
        entered = [self.ben.apply(change) for change in (third, second, first, first)]
        self.assertEqual(entered, [0, 0, 3, 0])
        self.assertEqual((self.ben.text(), self.ben.heads()), ("threetwoone", self.ann.heads()))
        with self.assertRaises(textpeer.NoChange):
            self.ann.change_bytes(3)
        with self.assertRaises(textpeer.Short):
            self.ben.apply(first[:-1])
        with self.assertRaises(textpeer.Short):
            self.ben.apply(b"")
        with self.assertRaises(textpeer.Trailing):
            self.ben.apply(first + b"\0")

    def test_what_a_change_says(self):
        first = self.ann.edit(0, 0, "abc", time=7, message="h\u00e9")
        self.ben.merge(self.ann)
        second, third = self.ann.edit(1, 2, ""), self.ben.edit_many([(0, 1, "\u20ac\u20ac"), (4, 0, "!")])
        self.ann.merge(self.ben)
        last = self.ann.edit(0, 0, ".", time=2 ** 64 - 1)
        between = tuple(sorted((second, third)))
        self.assertEqual(list(self.ann.changes()), [
            Change(first, ANN, 1, 7, "h\u00e9", (), 3, 0), Change(second, ANN, 2, 0, "", (first,), 0, 2),
            Change(third, BEN, 1, 0, "", (first,), 3, 1), Change(last, ANN, 3, 2 ** 64 - 1, "", between, 1, 0)])
        self.assertEqual(list(self.ann.changes(3)), [self.ann.change(3)])
        with self.assertRaises(textpeer.NoChange):
            self.ann.change(4)

    def test_earlier_texts(self):
        ann = self.ann
        first = ann.edit(0, 0, "one two")
        second = ann.edit_many([(0, 3, "\u20ac"), (2, 0, "or ")])
        self.assertEqual((ann.text_at([first]), ann.len_at([first]), ann.text_at([]), ann.len_at([])), ("one two", 7, "", 0))
        self.assertEqual((ann.text_at([second, first, second]), ann.len_at([second])), ("\u20ac or two", 8))
        self.assertEqual(ann.differences_since([first]), [(0, 3, "\u20ac"), (2, 0, "or ")])
        self.assertEqual(ann.differences([second], [first]), [(0, 1, "one"), (4, 3, "")])
        self.assertEqual((ann.differences([], [second]), ann.differences([second], [])), ([(0, 0, "\u20ac or two")], [(0, 8, "")]))
        self.assertEqual((ann.differences_since(ann.heads()), ann.differences([first], [first])), ([], []))
        for call in (lambda: ann.text_at([bytes(32)]), lambda: ann.len_at([first, bytes(32)]), lambda: ann.differences([bytes(32)], []),
                     lambda: ann.differences([], [bytes(32)]), lambda: ann.differences_since([bytes(32)])):
            with self.assertRaises(textpeer.UnknownHead):
                call()

    def test_a_part_of_a_hash(self):
        first, count = self.ann.edit(0, 0, "a"), ctypes.byref(ctypes.c_size_t())
        for call in (lambda: self.ann._answer(library.tp_text_at, first, 31), lambda: self.ann._count(library.tp_len_at, first + b"x", 33),
                     lambda: self.ann._answer(library.tp_differences_since, first, 1, None, 0, count),
                     lambda: self.ann._answer(library.tp_differences, first, 32, first, 31, None, 0, count)):
            with self.assertRaises(textpeer.BadLengths):
                call()

    def test_fork(self):
        self.ann.edit(0, 0, "abc")
        with self.ann.fork(BEN) as ben:
            self.assertEqual((ben.text(), ben.heads(), ben.identifier, ben.actor), ("abc", self.ann.heads(), TEXT, BEN))
            ben.edit(3, 0, "d")
            self.assertEqual((self.ann.text(), ben.change(1).actor, self.ann.merge(ben), self.ann.text()), ("abc", BEN, 1, "abcd"))

    def test_merge(self):
        self.ann.edit(0, 0, "a")
        self.ben.edit(0, 0, "b")
        self.assertEqual((self.ann.merge(self.ben), self.ann.merge(self.ann), self.ben.merge(self.ann)), (1, 0, 1))
        self.assertEqual((self.ann.text(), self.ann.heads()), (self.ben.text(), self.ben.heads()))
        with self.assertRaises(textpeer.OtherDocument) as refused, Editor(OTHER) as other:
            self.ann.merge(other)
        self.assertEqual(refused.exception.status, 110)

    def test_links(self):
        self.ann.edit(0, 0, "a")
        self.ben.edit(0, 0, "b")
        to_ben, to_ann = self.ann.link(), self.ben.link()
        self.assertEqual((to_ben.number, self.ann.link().number), (0, 1))
        sent = entered = 0
        while messages := [(link, message) for link in (to_ben, to_ann) if (message := link.generate())]:
            for link, message in messages:
                entered += (to_ann if link is to_ben else to_ben).receive(message)
            sent += len(messages)
            self.assertLess(sent, 12)
        self.assertEqual(entered, 2)
        self.assertEqual((self.ann.text(), self.ann.heads()), (self.ben.text(), self.ben.heads()))
        with self.assertRaises(textpeer.BadMessage):
            to_ben.receive(b"no message")
        with self.assertRaises(textpeer.NoLink):
            textpeer.Link(self.ann, 7).generate()

    def test_saved(self):
        self.ann.edit(0, 0, "kept", time=7, message="to Ben")
        saved = self.ann.save()
        with Editor.load(saved) as copy:
            self.assertEqual((copy.text(), copy.identifier, copy.heads(), copy.save()), ("kept", TEXT, self.ann.heads(), saved))
        for bad, refusal in ((b"", "Truncated"), (b"x" + saved[1:], "BadMagic"), (saved[:-1], "Truncated"), (saved + b"\0", "Damaged"),
                             (saved[:-1] + bytes([saved[-1] ^ 1]), "BadDigest")):
            with self.assertRaises(getattr(textpeer, refusal)):
                Editor.load(bad)

    def test_arguments(self):
        with self.assertRaises(ValueError):
            Editor(bytes(15))
        with self.assertRaises(ValueError):
            self.ann.edit(-1, 0, "x")
        with self.assertRaises(textpeer.OutOfRange):
            self.ann.edit(2 ** 64 - 1, 0, "x")
        with self.assertRaises(textpeer.TooLong):
            self.ann.edit(0, 0, "x", message="m" * 5_000_000)
        self.assertTrue(issubclass(textpeer.OutOfMemory, MemoryError))
        self.ann.close()
        self.ann.close()
        with self.assertRaises(ValueError):
            self.ann.text()


if __name__ == "__main__":
    unittest.main()
