"""Earlier texts, what changed between two, what changes say, and forks: by hand, and at random against a model in plain
Python, which has the changes' bytes alone."""
import hashlib
import random
import tempfile
import unittest
from pathlib import Path

import textpeer
from textpeer import Change, Editor, SharedEditor, Splice

TEXT, ANN, BEN = bytes([7]) * 16, bytes(15) + b"\1", bytes(15) + b"\2"


def turned(text, splices):
    """The text after the splices, each on the text that those before it leave."""
    for at, delete, inserted in splices:
        assert at + delete <= len(text)
        text = text[:at] + inserted + text[at + delete :]
    return text


class ByHand(unittest.TestCase):
    def setUp(self):
        self.ann = Editor(TEXT, ANN)

    def test_what_two_did_at_once(self):
        ann = self.ann
        ann.edit(0, 0, "the cat sat")
        start = ann.heads()
        ben = ann.fork(BEN)
        ben.edit(4, 3, "dog")
        ben.edit(11, 0, " down")
        ann.edit(0, 3, "a")
        mine = ann.heads()
        self.assertEqual(ann.merge(ben), 2)
        self.assertEqual(ann.text(), "a dog sat down")
        # What Ben did, on the text that Ann had: a, space, then cat.
        self.assertEqual(ann.differences_since(mine), [Splice(2, 3, "dog"), Splice(9, 0, " down")])
        self.assertEqual(ann.differences(mine, start), [(0, 1, "the")])
        self.assertEqual(ann.differences(ben.heads(), mine), [(0, 3, "a"), (2, 3, "cat"), (9, 5, "")])
        self.assertEqual((ann.text_at(mine), ann.text_at(ben.heads()), ann.len_at(start)), ("a cat sat", "the dog sat down", 11))
        self.assertEqual(ann.text_at(mine + ben.heads()), "a dog sat down")

    def test_what_is_written_anew_is_another(self):
        first = self.ann.edit(0, 0, "aaa")
        self.ann.edit(1, 1, "")
        self.ann.edit(1, 0, "a")
        self.assertEqual(self.ann.differences_since([first]), [(1, 1, "a")])
        self.assertEqual(self.ann.differences(self.ann.heads(), [first]), [(1, 1, "a")])

    def test_what_came_and_went_is_none(self):
        first = self.ann.edit(0, 0, "ab")
        self.ann.edit(1, 0, "x")
        self.ann.edit(1, 1, "")
        self.assertEqual(self.ann.differences_since([first]), [])

    def test_characters_are_counted(self):
        first = self.ann.edit(0, 0, "h\u00e9\n\U0001f600\n")
        self.ann.edit_many([(1, 1, ""), (2, 1, "\u20ac\U0001f600")])
        self.assertEqual(self.ann.differences_since([first]), [(1, 1, ""), (2, 1, "\u20ac\U0001f600")])
        self.assertEqual((self.ann.len_at([first]), self.ann.text_at([first])), (5, "h\u00e9\n\U0001f600\n"))

    def test_many_differences(self):
        first = self.ann.edit(0, 0, "ab" * 1000)
        self.ann.edit_many([(2 * i + 1, 1, "c") for i in range(1000)])
        self.assertEqual(self.ann.differences_since([first]), [(2 * i + 1, 1, "c") for i in range(1000)])
        for room in 63, 64, 65:
            with self.ann.fork() as other:
                before = other.heads()
                other.edit_many([(2 * i, 1, "\u20ac") for i in range(room)])
                self.assertEqual(other.differences_since(before), [(2 * i, 1, "\u20ac") for i in range(room)])

    def test_differences_are_an_edit(self):
        first = self.ann.edit(0, 0, "one two three")
        self.ann.edit_many([(0, 3, "1"), (2, 3, "2"), (4, 5, "")])
        self.assertEqual(self.ann.text(), "1 2 ")
        self.ann.edit_many(self.ann.differences(self.ann.heads(), [first]), message="back")
        self.assertEqual((self.ann.text(), self.ann.change(2).message), ("one two three", "back"))

    def test_what_a_change_says(self):
        # The example of docs/FORMATS.md, by its hash.
        self.ann.edit(0, 0, "abc")
        abc = bytes.fromhex("0153b6a03fe5f13941953ecce0ec2fb782967a032faa1bb8780ef96e70cdfbf3")
        self.assertEqual(self.ann.change(0), Change(abc, ANN, 1, 0, "", (), 3, 0))
        last = self.ann.edit(1, 2, "\u20ac", time=2**63, message="to B\u00e9n")
        self.assertEqual(self.ann.change(1), Change(last, ANN, 2, 2**63, "to B\u00e9n", (abc,), 1, 2))
        self.assertEqual(hashlib.sha256(self.ann.change_bytes(1)).digest(), last)
        self.assertEqual((len(self.ann.change_bytes(0)), hash(self.ann.change(0)) == hash(self.ann.change(0))), (58, True))
        with self.assertRaises(AttributeError):
            self.ann.change(0).seq = 2
        for bad in self.ann.change, self.ann.change_bytes:
            with self.assertRaises(textpeer.NoChange):
                bad(2)

    def test_changes_that_enter_meanwhile(self):
        self.ann.edit(0, 0, "a")
        found = []
        for change in self.ann.changes():
            found.append(change.seq)
            if change.seq < 3:
                self.ann.edit(0, 0, "b")
        self.assertEqual((found, list(self.ann.changes(3)), list(self.ann.changes(9))), ([1, 2, 3], [], []))

    def test_a_fork_is_a_copy(self):
        self.ann.edit(0, 0, "abc")
        self.ann.link()
        with self.ann.fork(BEN) as ben, self.ann.fork() as other:
            self.assertEqual((type(ben), ben.text(), ben.heads(), ben.save()), (Editor, "abc", self.ann.heads(), self.ann.save()))
            self.assertEqual((ben.actor, len(other.actor), ben.link().number), (BEN, 16, 0))
            self.assertNotEqual(other.actor, ANN)
            ben.edit(3, 0, "d")
            self.assertEqual((self.ann.text(), ben.text(), other.text()), ("abc", "abcd", "abc"))
            self.ann.close()
            self.assertEqual((other.merge(ben), other.text()), (1, "abcd"))

    def test_on_a_file(self):
        with tempfile.TemporaryDirectory() as folder:
            path = Path(folder) / "notes.journal"
            with SharedEditor.create(path, TEXT, ANN) as notes:
                self.assertEqual(notes.path, str(path))
                first = notes.edit(0, 0, "one two")
                notes.edit(0, 3, "1", time=7, message="shorter")
            with SharedEditor.open(path) as notes:
                self.assertEqual((notes.text_at([first]), notes.len_at([first])), ("one two", 7))
                self.assertEqual(notes.differences_since([first]), [(0, 3, "1")])
                last = notes.change(1)
                self.assertEqual((last.actor, last.time, last.message, last.inserted, last.deleted), (ANN, 7, "shorter", 1, 3))
                with notes.fork(BEN) as ben:
                    self.assertEqual((type(ben), ben.text(), ben.differences_since(notes.heads())), (Editor, "1 two", []))
                    ben.edit(0, 0, "> ")
                    self.assertEqual((notes.text(), notes.change_count()), ("1 two", 2))


class Model:
    """The texts of a document by the bytes of its changes (docs/FORMATS.md): its elements as a tree. Each is
    before those that refer to it, and of these the one with the greatest identifier is first."""

    def __init__(self):
        self.deps, self.inserts, self.deletes = {}, {}, {}
        self.children, self.chars = {}, {}

    def read(self, data):
        """Adds a change."""
        place = 0

        def number(size):
            nonlocal place
            place += size
            return int.from_bytes(data[place - size : place], "big")

        def some(size):
            nonlocal place
            place += size
            return data[place - size : place]

        name = hashlib.sha256(data).digest()
        number(1)
        actor, _, counter, _ = some(16), number(8), number(8), number(8)
        some(number(2))
        self.deps[name] = [some(32) for _ in range(number(2))]
        inserts, deletes = self.inserts.setdefault(name, set()), self.deletes.setdefault(name, set())
        for _ in range(number(4)):
            tag = number(1)
            if tag == 1:
                after = (number(8), some(16)) if number(1) else None
                for char in some(number(4)).decode():
                    self.children.setdefault(after, []).append((counter, actor))
                    after = (counter, actor)
                    self.chars[after] = char
                    inserts.add(after)
                    counter += 1
            else:
                first, of = number(8), some(16)
                count = number(4) if tag == 3 else 1
                deletes.update((first + i, of) for i in range(count))
                counter += count

    def order(self):
        """All elements in order."""
        found, waiting = [], sorted(self.children.get(None, []))
        while waiting:
            found.append(waiting.pop())
            waiting += sorted(self.children.get(found[-1], []))
        return found

    def shown(self, heads):
        """The elements that the text at the heads shows."""
        past, waiting = set(), list(heads)
        while waiting:
            name = waiting.pop()
            if name not in past:
                past.add(name)
                waiting += self.deps[name]
        inserts = set().union(*(self.inserts[name] for name in past))
        return inserts - set().union(*(self.deletes[name] for name in past))

    def text(self, heads):
        shown = self.shown(heads)
        return "".join(self.chars[each] for each in self.order() if each in shown)

    def differences(self, start, end):
        """The splices between what two texts show, each as long as nothing is between that both show."""
        was, now = self.shown(start), self.shown(end)
        splices, at, delete, text = [], 0, 0, ""
        for each in [*self.order(), None]:
            if each is None or each in was and each in now:
                if delete or text:
                    splices.append((at, delete, text))
                at, delete, text = at + len(text) + 1, 0, ""
            elif each in was:
                delete += 1
            elif each in now:
                text += self.chars[each]
        return splices


class AtRandom(unittest.TestCase):
    def edit(self, draw, editor):
        """Some splices of an editor, as one change."""
        splices, text = [], editor.text()
        for _ in range(draw.randint(1, 4)):
            at = draw.randint(0, len(text))
            delete = draw.randint(0, min(len(text) - at, draw.choice((0, 2, 6))))
            splices.append((at, delete, "".join(draw.choice("ab\n\u00e9\u20ac\U0001f600") for _ in range(draw.randint(0, 3)))))
            text = turned(text, splices[-1:])
        editor.edit_many(splices)
        self.assertEqual(editor.text(), text)

    def compare(self, draw, editor, kept):
        """Compares what an editor says of texts with the model: of kept heads, of single changes, and of none."""
        model, names = Model(), []
        for number, change in enumerate(editor.changes()):
            model.read(editor.change_bytes(number))
            names.append(change.hash)
            self.assertEqual(
                (list(change.dependencies), change.inserted, change.deleted),
                (model.deps[change.hash], len(model.inserts[change.hash]), len(model.deletes[change.hash])),
            )
        known = [heads for heads in kept if set(heads) <= set(names)]
        known += [draw.sample(names, draw.randint(0, min(3, len(names)))) for _ in range(4)] + [[], editor.heads()]
        for heads in known:
            self.assertEqual(editor.text_at(heads), model.text(heads))
            self.assertEqual(editor.len_at(heads), len(model.text(heads)))
            self.assertEqual(editor.differences_since(heads), model.differences(heads, editor.heads()))
        for _ in range(12):
            start, end = draw.choice(known), draw.choice(known)
            found = editor.differences(start, end)
            self.assertEqual(found, model.differences(start, end))
            self.assertEqual(turned(model.text(start), found), model.text(end))
            for one, other in zip(found, found[1:]):
                self.assertGreater(other.at, one.at + len(one.text))

    def test_against_a_model(self):
        draw = random.Random(11)
        for _ in range(12):
            editors = [Editor(TEXT, bytes([number]) * 16) for number in range(3)]
            kept = []
            for _ in range(14):
                editor = draw.choice(editors)
                if draw.random() < 0.3:
                    editor.merge(draw.choice(editors))
                else:
                    self.edit(draw, editor)
                kept.append(editor.heads())
            for editor in editors:
                self.compare(draw, editor, kept)
                editor.close()

    def test_a_longer_text_against_a_model(self):
        # More than the engine keeps in one block, with few changes near its end, as those that come to an editor.
        draw = random.Random(12)
        for _ in range(3):
            ann, kept = Editor(TEXT, ANN), []
            for at in range(0, 6000, 500):
                ann.edit(draw.randint(0, at), 0, "".join(draw.choices("abc\u20ac\n", k=500)))
            ben = ann.fork(BEN)
            for number in range(20):
                editor = (ann, ben)[number % 2]
                at = draw.randint(0, len(editor))
                delete = min(draw.choice((0, 1, 5, 600)), len(editor) - at)
                editor.edit(at, delete, draw.choice(("x", "y\U0001f600z")))
                kept += [editor.heads()]
                if draw.random() < 0.4:
                    kept += [ann.heads()]
                    ann.merge(ben)
                    ben.merge(ann)
            ann.merge(ben)
            self.compare(draw, ann, kept[-8:])


if __name__ == "__main__":
    unittest.main()
