"""What callers give: which types are taken, and which values."""
import array
import tempfile
import unittest
from pathlib import Path

import textpeer
from textpeer import Cursor, Editor, SharedEditor

ZEROS, ANN = bytes(16), bytes([1]) * 16
# What isn't bytes, though bytes() would take some of it.
NO_BYTES = (5, 16, "0" * 16, [0] * 16, (0,) * 16, array.array("B", ZEROS), object())


class Bytes(unittest.TestCase):
    def setUp(self):
        self.folder = tempfile.TemporaryDirectory()
        self.addCleanup(self.folder.cleanup)
        self.notes = SharedEditor.create(Path(self.folder.name) / "notes.journal")
        self.addCleanup(self.notes.close)

    def test_other_types_are_refused(self):
        editor, path = Editor(ZEROS, ANN), Path(self.folder.name) / "other.journal"
        editor.edit(0, 0, "a")
        counter, _ = editor.cursor(0)
        session = self.notes.begin("server")
        calls = {
            "Editor": Editor,
            "load": Editor.load,
            "text_at": lambda value: editor.text_at([value]),
            "len_at": lambda value: editor.len_at([value]),
            "differences from": lambda value: editor.differences([value], []),
            "differences to": lambda value: editor.differences([], [value]),
            "differences_since": lambda value: editor.differences_since([value]),
            "apply": editor.apply,
            "receive": editor.link().receive,
            "position": lambda value: editor.position((counter, value)),
            "open": lambda value: SharedEditor.open(path, value),
            "create, identifier": lambda value: SharedEditor.create(path, value),
            "create, actor": lambda value: SharedEditor.create(path, actor=value),
            "shared position": lambda value: self.notes.position((counter, value)),
            "receive_data": session.receive_data,
        }
        for value in NO_BYTES:
            for name, call in calls.items():
                with self.subTest(call=name, value=value), self.assertRaises(TypeError):
                    call(value)
        self.assertEqual((editor.text(), path.exists(), session.is_over), ("a", False, False))

    def test_other_types_are_no_actor(self):
        saved = Editor(ZEROS).save()
        for value in NO_BYTES:
            for call in (
                lambda: Editor(ZEROS, value),
                lambda: Editor.load(saved, value),
                lambda: self.notes.fork(value),
            ):
                with self.assertRaises(TypeError):
                    call()

    def test_one_hash_is_no_list_of_them(self):
        with Editor(ZEROS) as editor:
            head = editor.edit(0, 0, "a")
            for call in editor.text_at, editor.len_at, editor.differences_since, lambda value: editor.differences([], value):
                for bad in head, bytearray(head), memoryview(head), b"", "", 5, None:
                    with self.assertRaises(TypeError):
                        call(bad)
                for length in 0, 31, 33:
                    with self.assertRaises(ValueError):
                        call([head, bytes(length)])
                for kind in bytes, bytearray, memoryview:
                    call([kind(head)])
                    call((kind(head),))

    def test_none_is_no_identifier(self):
        with self.assertRaises(TypeError):
            Editor(None)

    def test_a_bytearray_and_a_memoryview_are_taken(self):
        for kind in bytes, bytearray, memoryview:
            with Editor(kind(ANN), kind(ANN)) as editor:
                editor.edit(0, 0, "a")
                self.assertEqual((editor.identifier, editor.actor, editor.fork(kind(ZEROS)).actor), (ANN, ANN, ZEROS))
                self.assertEqual(editor.cursor(0), Cursor(1, ANN))
                self.assertEqual(editor.position((1, kind(ANN))), 0)
                self.assertEqual(Editor.load(kind(editor.save())).text(), "a")
                with Editor(ANN) as other:
                    self.assertEqual(other.apply(kind(editor.change_bytes(0))), 1)

    def test_sixteen_of_them(self):
        for length in 0, 15, 17:
            for call in Editor, lambda value: Editor(ZEROS, value), self.notes.fork, lambda value: self.notes.position((1, value)):
                with self.assertRaises(ValueError):
                    call(bytes(length))


class Others(unittest.TestCase):
    def setUp(self):
        self.editor = Editor(ZEROS)

    def test_numbers(self):
        for bad in -1, 2**64:
            for call in (
                lambda number: self.editor.edit(number, 0, "x"),
                lambda number: self.editor.edit(0, number, "x"),
                lambda number: self.editor.edit(0, 0, "x", time=number),
                lambda number: self.editor.edit_many([(0, 0, "x"), (number, 0, "y")]),
                lambda number: self.editor.edit_many([(0, 0, "x"), (0, number, "y")]),
                self.editor.change,
                self.editor.change_bytes,
                lambda number: next(self.editor.changes(number)),
                self.editor.cursor,
            ):
                with self.assertRaises(ValueError):
                    call(bad)
        for bad in 0.0, "0", None:
            with self.assertRaises(TypeError):
                self.editor.edit(bad, 0, "x")
        self.assertEqual(self.editor.text(), "")

    def test_texts(self):
        for bad in b"x", 5, None:
            with self.assertRaises(TypeError):
                self.editor.edit(0, 0, bad)
            with self.assertRaises(TypeError):
                self.editor.edit(0, 0, "x", message=bad)
            with self.assertRaises(TypeError):
                self.editor.edit_many([(0, 0, "x"), (0, 0, bad)])
        with self.assertRaises(TypeError):
            self.editor.edit_many([5])
        with self.assertRaises(ValueError):
            self.editor.edit_many([(0, 0)])
        # Half of a surrogate pair is no character.
        with self.assertRaises(ValueError):
            self.editor.edit(0, 0, "\ud800")
        self.assertEqual(self.editor.text(), "")

    def test_editors(self):
        for bad in None, ZEROS, self.editor.link():
            with self.assertRaises(TypeError):
                self.editor.merge(bad)
        for call in SharedEditor, lambda: SharedEditor(ZEROS), lambda: SharedEditor.load(self.editor.save()):
            with self.assertRaises(TypeError):
                call()

    def test_paths(self):
        with self.assertRaises(ValueError):
            SharedEditor.open("notes\0.journal")
        for bad in 5, None, ["notes.journal"]:
            with self.assertRaises(TypeError):
                SharedEditor.open(bad)

    def test_what_a_closed_editor_does(self):
        self.editor.close()
        self.editor.close()
        self.assertTrue(self.editor.closed)
        self.assertEqual(repr(self.editor), "<textpeer.Editor, closed>")
        for call in self.editor.text, self.editor.heads, self.editor.save, lambda: len(self.editor), lambda: self.editor.edit(0, 0, "x"):
            with self.assertRaises(ValueError):
                call()
        with self.assertRaises(ValueError), Editor(ZEROS) as other:
            other.merge(self.editor)


class Refusals(unittest.TestCase):
    def test_words(self):
        with Editor(ZEROS) as editor, self.assertRaises(textpeer.OutOfRange) as caught:
            editor.edit(1, 0, "x")
        refused = caught.exception
        self.assertIsInstance(refused, textpeer.Refused)
        self.assertEqual(refused.status, 101)
        self.assertEqual(str(refused), "OutOfRange: the text ends before the position, or before the end of what is to be deleted")

    def test_one_class_for_a_name(self):
        for name, statuses in (
            ("OutOfMemory", (1, 109, 205, 307, 411, 509, 608, 803)),
            ("TooManyHeads", (104, 203)),
            ("PendingFull", (107, 204)),
            ("OtherDocument", (110, 206, 603, 701)),
            ("NotKept", (113, 207)),
            ("Io", (306, 802)),
            ("Version", (401, 604, 702)),
        ):
            found = {textpeer.STATUSES[status] for status in statuses}
            self.assertEqual(found, {getattr(textpeer, name)})

    def test_kinds_that_python_has(self):
        self.assertTrue(issubclass(textpeer.OutOfMemory, MemoryError))
        for kind in textpeer.Io, textpeer.JournalFailed:
            self.assertTrue(issubclass(kind, OSError))
        for kind in textpeer.STATUSES.values():
            self.assertTrue(issubclass(kind, textpeer.Refused))

    def test_each_name_is_there(self):
        for name in textpeer.__all__:
            self.assertTrue(hasattr(textpeer, name), name)


if __name__ == "__main__":
    unittest.main()
