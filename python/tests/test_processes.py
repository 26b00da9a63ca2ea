"""Editors and processes: workers that are forked while one is open, copies, and an interpreter that ends within a call.

$TEXTPEER_PROGRAM names the program `textpeer`; without it it is the clone's.
"""
import copy
import ctypes
import io
import multiprocessing
import os
import pathlib
import pickle
import subprocess
import sys
import tempfile
import threading
import time
import unittest
import warnings

import textpeer
from textpeer import Editor, Forked, SharedEditor

TEXT, ANN = bytes([7]) * 16, bytes(15) + b"\1"
PROGRAM = os.environ.get("TEXTPEER_PROGRAM") or str(pathlib.Path(__file__).resolve().parents[2] / "textpeer")
# Programs, over the journal that is their argument. One forks beside a thread that edits, and each child leaves the `with` and
# ends as its parent does; one ends while another thread is within a call.
FORKS = """
import os, sys, threading, textpeer
made, ends = [], threading.Event()
with textpeer.SharedEditor.open(sys.argv[1]) as notes:
    def write():
        while not ends.is_set():
            made.append(notes.edit(0, 0, "x" * 1000))
            notes.text()
    writer = threading.Thread(target=write)
    writer.start()
    for _ in range(20):
        child = os.fork()
        if not child:
            break
        assert os.waitpid(child, 0)[1] == 0
    else:
        ends.set()
        writer.join()
        print("".join(f"{each.hex()}\\n" for each in made), end="")
"""
ENDS = """
import sys, threading, textpeer
notes, begun = textpeer.SharedEditor.open(sys.argv[1]), threading.Event()
def write():
    while True:
        sys.stdout.write(notes.edit(0, 0, "x" * 2000).hex() + "\\n")
        begun.set()
        notes.text()
threading.Thread(target=write, daemon=True).start()
begun.wait()
"""
# What the workers of a pool have of their parent.
OPEN = {}


def calls_of(notes, link, session):
    """Each call of an editor, of its link and of its session that comes to the engine or takes a lock."""
    return {
        "edit": lambda: notes.edit(0, 0, "worker"),
        "edit_many": lambda: notes.edit_many([(0, 0, "worker")]),
        "text": notes.text,
        "len": lambda: len(notes),
        "save": notes.save,
        "identifier": lambda: notes.identifier,
        "cursor": lambda: notes.cursor(0),
        "position": lambda: notes.position((1, ANN)),
        "heads": notes.heads,
        "change_count": notes.change_count,
        "change": lambda: notes.change(0),
        "changes": lambda: list(notes.changes()),
        "change_bytes": lambda: notes.change_bytes(0),
        "text_at": lambda: notes.text_at([]),
        "len_at": lambda: notes.len_at([]),
        "differences": lambda: notes.differences([], []),
        "differences_since": lambda: notes.differences_since([]),
        "apply": lambda: notes.apply(b""),
        "merge": lambda: notes.merge(Editor(TEXT)),
        "merge of it": lambda: Editor(TEXT).merge(notes),
        "fork": notes.fork,
        "link": notes.link,
        "begin": notes.begin,
        "sync": lambda: notes.sync("127.0.0.1:1"),
        "exchange": lambda: notes.exchange(io.BytesIO()),
        "generate": link.generate,
        "receive": lambda: link.receive(b""),
        "data_to_send": session.data_to_send,
        "receive_data": lambda: session.receive_data(b""),
        "end": session.end,
    }


def answers(calls):
    """What each call raises, by its name."""
    found = {}
    for name, call in calls.items():
        try:
            found[name] = repr(call())
        except Exception as error:
            found[name] = f"{type(error).__name__}: {error}"
    return found


def work(_):
    """A worker's: tries all that its parent has, and ends none of it by its own."""
    found = {kind: answers(calls_of(*parts)) for kind, parts in OPEN.items()}
    shown = [repr(notes) for notes, _, _ in OPEN.values()]
    for notes, _, _ in OPEN.values():
        with notes:
            pass
        notes.close()
    time.sleep(0.05)
    return os.getpid(), found, shown


def own(path):
    """A worker's: an editor that it opens itself."""
    with SharedEditor.open(path) as notes:
        notes.edit(0, 0, "own ")
        return notes.text()


def pool(size):
    """A pool of workers that are forked."""
    return multiprocessing.get_context("fork").Pool(size)


def ended(process, seconds=60):
    """How the child ends, within so many seconds; it is ended where it doesn't."""
    for _ in range(seconds * 100):
        found, status = os.waitpid(process, os.WNOHANG)
        if found:
            return os.WEXITSTATUS(status) if os.WIFEXITED(status) else -os.WTERMSIG(status)
        time.sleep(0.01)
    os.kill(process, 9)
    os.waitpid(process, 0)
    return None


class Case(unittest.TestCase):
    """A folder for the files of a test."""

    def setUp(self):
        folder = tempfile.TemporaryDirectory()
        self.addCleanup(folder.cleanup)
        self.path = pathlib.Path(folder.name) / "notes.journal"
        # Python says of each fork beside a thread that it may wait for ever: it is what is tried here.
        caught = warnings.catch_warnings()
        caught.__enter__()
        self.addCleanup(caught.__exit__, None, None, None)
        warnings.simplefilter("ignore", DeprecationWarning)

    def journal(self):
        """A shared editor of a new journal."""
        notes = SharedEditor.create(self.path, TEXT, ANN)
        self.addCleanup(notes.close)
        return notes

    def program(self, *words):
        """What the program prints of the journal."""
        words = [PROGRAM, words[0], self.path, *words[1:]]
        return subprocess.run(words, check=True, capture_output=True, text=True, timeout=60).stdout


class Forks(Case):
    def test_a_pool_of_workers(self):
        notes, memory = self.journal(), Editor(TEXT)
        hashes = [notes.edit(0, 0, "abc")]
        memory.edit(0, 0, "abc")
        OPEN.update({"shared": (notes, notes.link(), notes.begin()), "memory": (memory, memory.link(), memory.begin())})
        self.addCleanup(OPEN.clear)
        says = (
            f"Forked: this process was forked from {os.getpid()}, which opened the editor: call it there, and open one"
            " here on a journal of its own, or once the other one is closed"
        )
        with pool(4) as workers:
            waits = workers.map_async(work, range(12), 1)
            while not waits.ready():
                hashes.append(notes.edit(len(notes), 0, "d"))
            for process, found, shown in waits.get():
                self.assertNotEqual(process, os.getpid())
                for kind, parts in OPEN.items():
                    self.assertEqual(found[kind], dict.fromkeys(calls_of(*parts), says))
                self.assertEqual(shown, [f"<textpeer.{kind}, of process {os.getpid()}>" for kind in ("SharedEditor", "Editor")])
            # The parent's goes on.
            text = "abc" + "d" * (len(hashes) - 1)
            self.assertEqual((notes.text(), memory.text(), notes.change_count()), (text, "abc", len(hashes)))
            notes.close()
            # No worker keeps the file's lock, and one may have the file then.
            self.assertEqual(workers.apply(own, (self.path,)), "own " + text)
        logged = [bytes.fromhex(line.split()[0]) for line in self.program("log").splitlines()]
        self.assertEqual((logged[:-1], self.program("text")), (hashes, f"own {text}\n"))

    def test_children_that_end_as_their_parent(self):
        self.journal().close()
        ran = subprocess.run([sys.executable, "-c", FORKS, self.path], check=True, capture_output=True, text=True, timeout=60)
        self.assertEqual([line.split()[0] for line in self.program("log").splitlines()], ran.stdout.split())

    def test_a_fork_within_a_call(self):
        notes, ends = self.journal(), threading.Event()
        made = []

        def write():
            while not ends.is_set():
                made.append(notes.edit(0, 0, "x" * 1000))
                notes.text()

        writer = threading.Thread(target=write)
        writer.start()
        try:
            for _ in range(20):
                child = os.fork()
                if not child:
                    try:
                        notes.edit(0, 0, "child")
                    except Forked:
                        notes.close()
                        os._exit(7)
                    os._exit(8)
                self.assertEqual(ended(child), 7)
        finally:
            ends.set()
            writer.join()
        self.assertEqual((notes.change_count(), notes.text()), (len(made), "x" * 1000 * len(made)))
        notes.close()
        with SharedEditor.open(self.path) as again:
            self.assertEqual([change.hash for change in again.changes()], made)

    def test_a_fork_that_python_knows_nothing_of(self):
        notes = self.journal()
        child = ctypes.PyDLL(None).fork()
        if not child:
            try:
                notes.edit(0, 0, "child")
            except Forked:
                os._exit(7)
            os._exit(8)
        self.assertEqual((ended(child), notes.change_count()), (7, 0))


class Copies(Case):
    def test_none_is_copied_or_pickled(self):
        notes = self.journal()
        notes.edit(0, 0, "abc")
        for editor in notes, Editor(TEXT):
            for single, instead in (
                (editor, "`fork` makes a second editor of its document, and `save` gives its bytes for `load`"),
                (editor.link(), "`Editor.link` opens another one"),
                (editor.begin(), "`Editor.begin` begins another one"),
            ):
                calls = [copy.copy, copy.deepcopy, pickle.dumps, lambda one: one.__reduce__(), lambda one: copy.deepcopy([one])]
                calls += [lambda one, at=at: pickle.dumps(one, at) for at in range(pickle.HIGHEST_PROTOCOL + 1)]
                for call in calls:
                    with self.subTest(kind=type(single)), self.assertRaises(TypeError) as caught:
                        call(single)
                    self.assertEqual(str(caught.exception), f"{type(single).__name__} is neither copied nor pickled: {instead}")
        self.assertEqual(notes.text(), "abc")

    def test_values_are_copied_and_pickled(self):
        notes = Editor(TEXT, ANN)
        notes.edit(0, 0, "abc")
        for value in notes.cursor(1), notes.change(0), notes.differences_since([]), notes.heads():
            self.assertEqual((copy.deepcopy(value), pickle.loads(pickle.dumps(value))), (value, value))
        self.assertEqual(Editor.load(notes.save()).text(), "abc")

    def test_a_worker_that_is_given_an_editor(self):
        notes = self.journal()
        with pool(1) as workers, self.assertRaisesRegex(TypeError, "^SharedEditor is neither copied nor pickled: `fork` makes"):
            workers.apply(len, (notes,))
        self.assertEqual(notes.text(), "")

    def test_a_copy_beside_a_thread(self):
        notes, made, raised = self.journal(), [], []

        def write(editor):
            while editor.change_count() < 200:
                made.append(editor.edit(0, 0, "x" * 500))
                editor.text()

        def try_copies(editor):
            while writer.is_alive():
                for call in copy.copy, copy.deepcopy:
                    try:
                        call(editor).close()
                    except TypeError as error:
                        raised.append(error)
                time.sleep(0.001)

        writer = threading.Thread(target=write, args=(notes,))
        writer.start()
        try_copies(notes)
        writer.join()
        self.assertGreater(len(raised), 1)
        self.assertEqual((notes.text(), notes.change_count()), ("x" * 500 * 200, 200))
        notes.close()
        with SharedEditor.open(self.path) as again:
            self.assertEqual([change.hash for change in again.changes()], made)


class Ends(Case):
    def test_the_interpreter_ends_within_a_call(self):
        self.journal().close()
        for _ in range(5):
            ran = subprocess.run([sys.executable, "-c", ENDS, self.path], capture_output=True, text=True, check=False, timeout=60)
            self.assertEqual(ran.returncode, 0, ran.stderr)
            answered = {line for line in ran.stdout.splitlines() if len(line) == 64}
            logged = {line.split()[0] for line in self.program("log").splitlines()}
            self.assertTrue(answered and answered <= logged)


if __name__ == "__main__":
    unittest.main()
