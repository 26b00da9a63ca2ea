"""Shared editors: their files, their sessions by bytes, over sockets and pipes, with the program `textpeer` at the
other end, and with others that keep to no rule.

$TEXTPEER_PROGRAM names the program; without it it is the clone's.
"""
import errno
import gc
import io
import itertools
import os
import pathlib
import resource
import shutil
import socket
import subprocess
import tempfile
import threading
import time
import unittest

import textpeer
from textpeer import Cursor, Editor, SharedEditor
from textpeer._streams import place_of

TEXT, ANN, BEN = bytes([7]) * 16, bytes(15) + b"\1", bytes(15) + b"\2"
PROGRAM = os.environ.get("TEXTPEER_PROGRAM") or str(pathlib.Path(__file__).resolve().parents[2] / "textpeer")
# Frames by hand: the length in 4 bytes, the kind, and what it has (docs/FORMATS.md).
HELLO = bytes.fromhex("00000012" "00" "02") + TEXT
DONE = bytes.fromhex("00000001" "02")


def refusal_frame(code):
    """A refusal with this code, as a frame."""
    return bytes.fromhex("00000002" "03") + bytes([code])


class Folder(unittest.TestCase):
    """A folder for the files of a test."""

    def setUp(self):
        folder = tempfile.TemporaryDirectory()
        self.addCleanup(folder.cleanup)
        self.folder = pathlib.Path(folder.name)

    def journal(self, name, actor=None):
        """A shared editor of a new journal of the document."""
        editor = SharedEditor.create(self.folder / name, TEXT, actor)
        self.addCleanup(editor.close)
        return editor

    def program(self, *words):
        """What the program prints."""
        return subprocess.run([PROGRAM, *words], cwd=self.folder, check=True, capture_output=True, text=True, timeout=60).stdout


class Files(Folder):
    def test_what_was_written_is_there_again(self):
        path = self.folder / "notes.journal"
        with SharedEditor.create(path, TEXT, ANN) as notes:
            self.assertEqual((notes.text(), len(notes), notes.heads(), notes.change_count()), ("", 0, [], 0))
            self.assertEqual((notes.identifier, notes.actor), (TEXT, ANN))
            made = notes.edit(0, 0, "h\u00e9 \u20ac \U0001f600")
            self.assertIsNone(notes.edit(0, 0, ""))
            self.assertEqual((notes.text(), len(notes), notes.heads()), ("h\u00e9 \u20ac \U0001f600", 6, [made]))
            last = notes.edit(1, 1, "e", time=7, message="to Ben")
        with SharedEditor.open(path) as notes:
            self.assertEqual((notes.text(), notes.heads(), notes.change_count()), ("he \u20ac \U0001f600", [last], 2))
            self.assertEqual(notes.identifier, TEXT)
        self.assertEqual(self.program("text", "notes.journal"), "he \u20ac \U0001f600\n")
        self.assertEqual(self.program("log", "notes.journal").splitlines()[1], f"{last.hex()} {ANN.hex()} 2 7 +1 -1 to Ben")

    def test_a_change_is_as_its_format_says(self):
        # The example of docs/FORMATS.md, by its hash.
        made = self.journal("a", ANN).edit(0, 0, "abc")
        self.assertEqual(made.hex(), "0153b6a03fe5f13941953ecce0ec2fb782967a032faa1bb8780ef96e70cdfbf3")

    def test_actors_and_identifiers_are_drawn(self):
        notes, other = SharedEditor.create(self.folder / "a"), SharedEditor.create(self.folder / "b")
        drawn = {notes.identifier, notes.actor, other.identifier, other.actor}
        self.assertEqual((len(drawn), {len(each) for each in drawn}), (4, {16}))
        notes.close()
        with SharedEditor.open(self.folder / "a") as again:
            self.assertNotIn(again.actor, drawn)
        other.close()

    def test_cursors(self):
        notes = self.journal("a", ANN)
        notes.edit(0, 0, "abc")
        cursor = notes.cursor(1)
        self.assertEqual(cursor, Cursor(2, ANN))
        notes.edit(0, 0, "more ")
        self.assertEqual(notes.position(cursor), 6)
        notes.edit(6, 1, "")
        self.assertEqual(notes.position(cursor), 6)
        with self.assertRaises(textpeer.OutOfRange):
            notes.cursor(7)
        with self.assertRaises(textpeer.UnknownElement):
            notes.position((99, BEN))

    def test_what_cannot_be_opened(self):
        absent = self.folder / "absent"
        with self.assertRaises(textpeer.Io) as caught:
            SharedEditor.open(absent)
        self.assertIsInstance(caught.exception, OSError)
        self.assertEqual((caught.exception.status, caught.exception.errno, caught.exception.filename), (802, errno.ENOENT, str(absent)))
        with self.assertRaises(textpeer.Io) as caught:
            SharedEditor.open(str(self.folder))
        self.assertEqual(caught.exception.errno, errno.EISDIR)
        notes = self.journal("a", ANN)
        notes.edit(0, 0, "x")
        for call in SharedEditor.open, SharedEditor.create:
            with self.assertRaises(textpeer.Busy):
                call(self.folder / "a")
        notes.close()
        bytes_then = (self.folder / "a").read_bytes()
        with self.assertRaises(textpeer.ActorInUse):
            SharedEditor.open(self.folder / "a", ANN)
        with self.assertRaises(textpeer.JournalNotEmpty):
            SharedEditor.create(self.folder / "a")
        self.assertEqual((self.folder / "a").read_bytes(), bytes_then)
        (self.folder / "empty").touch()
        with self.assertRaises(textpeer.NoHeader):
            SharedEditor.open(self.folder / "empty")
        (self.folder / "other").write_bytes(b"no journal, but as long as the header of one")
        with self.assertRaises(textpeer.BadMagic):
            SharedEditor.open(self.folder / "other")

    def test_many_splices_are_one_change(self):
        notes = self.journal("a")
        notes.edit(0, 0, "one two three")
        made = notes.edit_many([(0, 3, "1"), (2, 3, "\u20ac"), (4, 0, "3 or ")], time=7, message="numbers")
        self.assertEqual((notes.text(), notes.heads(), notes.change_count()), ("1 \u20ac 3 or three", [made], 2))
        self.assertIsNone(notes.edit_many([]))
        self.assertIsNone(notes.edit_many([(0, 0, ""), (3, 0, "")]))
        notes.close()
        with SharedEditor.open(self.folder / "a") as again:
            self.assertEqual((again.text(), again.heads()), ("1 \u20ac 3 or three", [made]))

    def test_a_refused_edit_leaves_the_text(self):
        notes = self.journal("a")
        notes.edit(0, 0, "abc")
        for call, kind in (
            (lambda: notes.edit(4, 0, "x"), textpeer.OutOfRange),
            (lambda: notes.edit(2, 2, "x"), textpeer.OutOfRange),
            (lambda: notes.edit(0, 0, "x" * 65537), textpeer.TooManyOps),
            (lambda: notes.edit(0, 0, "x", message="m" * 65536), textpeer.TooLong),
            (lambda: notes.edit_many([(0, 3, "x"), (2, 0, "y")]), textpeer.OutOfRange),
            (lambda: notes.edit_many([(0, 0, "x" * 65535), (0, 2, "")]), textpeer.TooManyOps),
        ):
            with self.assertRaises(kind):
                call()
        self.assertEqual((notes.text(), notes.change_count()), ("abc", 1))

    def test_a_disk_that_is_full(self):
        notes = self.journal("a")
        notes.edit(0, 0, "abc")
        session = notes.begin()
        soft, hard = resource.getrlimit(resource.RLIMIT_FSIZE)
        resource.setrlimit(resource.RLIMIT_FSIZE, ((self.folder / "a").stat().st_size + 10, hard))
        try:
            with self.assertRaises(textpeer.JournalFailed) as caught:
                notes.edit(3, 0, "def")
        finally:
            resource.setrlimit(resource.RLIMIT_FSIZE, (soft, hard))
        self.assertIsInstance(caught.exception, OSError)
        link = notes.link()
        for call in (lambda: notes.edit(3, 0, "def"), notes.begin, link.generate, lambda: Editor(TEXT).merge(notes)):
            with self.assertRaises(textpeer.Stopped):
                call()
        self.assertEqual((notes.text(), session.is_over), ("abc", True))
        notes.close()
        with SharedEditor.open(self.folder / "a") as again:
            self.assertEqual(again.text(), "abc")
            again.edit(3, 0, "def")
        self.assertEqual(self.program("text", "a"), "abcdef\n")

    def test_a_journal_that_is_not_there_any_more(self):
        for name, harm in (
            ("moved", lambda path: path.rename(path.with_name("elsewhere"))),
            ("removed", lambda path: path.unlink()),
            ("replaced", lambda path: os.replace(shutil.copyfile(path, path.with_name("older")), path)),
            ("cut", lambda path: os.truncate(path, path.stat().st_size - 20)),
        ):
            with self.subTest(name):
                notes = self.journal(name)
                made = notes.edit(0, 0, "abc")
                harm(self.folder / name)
                with self.assertRaises(textpeer.JournalFailed) as caught:
                    notes.edit(3, 0, "def")
                says = "the journal can't be written or was moved, replaced or cut: close it, put it back or make room, open it anew"
                self.assertEqual(str(caught.exception), f"JournalFailed: {says}")
                with self.assertRaises(textpeer.Stopped):
                    notes.edit(3, 0, "def")
                self.assertEqual((notes.text(), notes.heads()), ("abc", [made]))
                notes.close()
        (self.folder / "elsewhere").rename(self.folder / "moved")
        # What was refused may be in it.
        with SharedEditor.open(self.folder / "moved") as notes:
            self.assertEqual(notes.text_at([notes.change(0).hash]), "abc")
            notes.edit(0, 0, "x")

    def test_what_is_collected_frees_its_file(self):
        notes = SharedEditor.create(self.folder / "a")
        notes.begin().end()
        del notes
        SharedEditor.open(self.folder / "a").begin()
        gc.collect()
        SharedEditor.open(self.folder / "a").close()

    def test_threads_share_an_editor(self):
        notes = self.journal("a")

        def write():
            for _ in range(50):
                notes.edit(0, 0, "x")

        threads = [threading.Thread(target=write) for _ in range(4)]
        for thread in threads:
            thread.start()
        for thread in threads:
            thread.join()
        self.assertEqual((notes.text(), notes.change_count()), ("x" * 200, 200))

    def test_one_call_at_a_time(self):
        notes = self.journal("a")
        session = notes.begin()
        for call in (
            notes.text,
            notes.heads,
            notes.change_count,
            lambda: len(notes),
            lambda: notes.identifier,
            lambda: notes.edit(0, 0, "x"),
            lambda: session.receive_data(b""),
            session.data_to_send,
            session.end,
            notes.begin,
            notes.close,
        ):
            with notes._lock:
                thread = threading.Thread(target=call)
                thread.start()
                thread.join(0.02)
                self.assertTrue(thread.is_alive(), call)
            thread.join(60)


class Bytes(Folder):
    """Sessions by bytes alone."""

    def carry(self, client, server, size=1 << 20):
        """Carries bytes between two sessions, `size` at a time, until neither has any. What each sent."""
        sent = {client: [], server: []}
        while True:
            due = [(client, server, client.data_to_send()), (server, client, server.data_to_send())]
            if not any(data for _, _, data in due):
                return sent[client], sent[server]
            for sender, receiver, data in due:
                if data:
                    sent[sender].append(data)
                for at in range(0, len(data), size):
                    receiver.receive_data(data[at : at + size])

    def test_the_frames_are_as_the_format_says(self):
        ann, ben = self.journal("a", ANN), self.journal("b", BEN)
        ann.edit(0, 0, "abc")
        ben.edit(0, 0, "q")
        client, server = ann.begin(), ben.begin("server")
        from_client, from_server = self.carry(client, server)
        # The example of docs/FORMATS.md: its messages, each with 5 bytes of its frame before it.
        self.assertEqual([len(data) for data in from_client], [22, 81 + 5, 207 + 5, 5])
        self.assertEqual([len(data) for data in from_server], [22, 173 + 5, 145 + 5, 5])
        self.assertEqual((from_client[0], from_server[0], from_client[-1], from_server[-1]), (HELLO, HELLO, DONE, DONE))
        self.assertEqual((ann.text(), ben.text()), ("qabc", "qabc"))
        self.assertEqual(ann.heads(), ben.heads())
        self.assertEqual((client.is_complete, server.is_complete, client.entered, server.entered), (True, True, 1, 1))
        self.assertEqual((client.is_over, server.is_over), (True, True))

    def test_bytes_come_in_any_pieces(self):
        ann, ben = self.journal("a", ANN), self.journal("b", BEN)
        ann.edit(0, 0, "abc")
        client, server = ann.begin(), ben.begin("server")
        self.carry(client, server, 1)
        self.assertEqual((ben.text(), client.is_complete, server.is_complete), ("abc", True, True))

    def test_what_the_other_side_breaks(self):
        for came, kind, status, due in (
            (b"HTTP/1.1 400 Bad Request\r\n\r\n", textpeer.Frame, 602, refusal_frame(3)),
            (bytes.fromhex("00000000"), textpeer.Frame, 602, refusal_frame(3)),
            (bytes.fromhex("00000012" "00" "03") + TEXT, textpeer.Version, 604, refusal_frame(2)),
            (bytes.fromhex("00000012" "00" "02") + bytes(16), textpeer.OtherDocument, 603, refusal_frame(1)),
            (DONE, textpeer.Unexpected, 605, refusal_frame(3)),
            (HELLO + HELLO, textpeer.Unexpected, 605, None),
            (HELLO + bytes.fromhex("00000003" "01" "0200"), textpeer.BadMessage, 201, None),
            (HELLO + refusal_frame(1), textpeer.OtherDocument, 701, None),
            (HELLO + refusal_frame(2), textpeer.Version, 702, None),
            (HELLO + refusal_frame(3), textpeer.Malformed, 703, None),
            (HELLO + refusal_frame(4), textpeer.TooMany, 704, None),
            (HELLO + refusal_frame(5), textpeer.Other, 705, None),
            (HELLO + refusal_frame(0), textpeer.Other, 700, None),
            # A number that this side has for another thing.
            (HELLO + refusal_frame(101), textpeer.Other, 801, None),
        ):
            with self.subTest(came=came):
                notes = SharedEditor.create(self.folder / came.hex()[-60:], TEXT)
                notes.edit(0, 0, "abc")
                session = notes.begin()
                self.assertEqual(session.data_to_send(), HELLO)
                with self.assertRaises(kind) as caught:
                    session.receive_data(came)
                self.assertEqual((type(caught.exception), caught.exception.status), (kind, status))
                self.assertEqual((session.is_over, session.is_complete), (True, False))
                if due is not None:
                    self.assertEqual(session.data_to_send(), due)
                with self.assertRaises(textpeer.Unexpected):
                    session.receive_data(HELLO)
                self.assertEqual(notes.text(), "abc")
                notes.close()

    def test_words_of_a_number_that_is_none(self):
        session = self.journal("a").begin()
        with self.assertRaises(textpeer.Other) as caught:
            session.receive_data(HELLO + refusal_frame(101))
        self.assertEqual(str(caught.exception), "Other: the other side refused, and sent the number 101")

    def test_one_session_at_a_time(self):
        notes = self.journal("a")
        first = notes.begin()
        second = notes.begin("server")
        self.assertEqual((first.is_over, second.is_over, second.data_to_send()), (True, False, b""))
        with self.assertRaises(textpeer.Unexpected):
            first.receive_data(HELLO)
        first.end()
        self.assertFalse(second.is_over)
        second.end()
        self.assertEqual((second.is_over, second.is_complete), (True, False))
        with self.assertRaises(ValueError):
            notes.begin("host")
        third = notes.begin()
        notes.close()
        self.assertEqual((third.is_over, third.is_complete), (True, False))
        with self.assertRaises(ValueError):
            third.receive_data(HELLO)
        third.end()


class Streams(Folder):
    """Sessions over sockets and streams of this process."""

    def setUp(self):
        super().setUp()
        self.ann, self.ben = self.journal("a", ANN), self.journal("b", BEN)
        self.ann.edit(0, 0, "abc")
        self.ben.edit(0, 0, "q")

    def both(self, client, server):
        """What two calls answer that are made at once."""
        answers = {}
        thread = threading.Thread(target=lambda: answers.update(server=server()))
        thread.start()
        answers["client"] = client()
        thread.join(60)
        return answers["client"], answers["server"]

    def same(self):
        self.assertEqual((self.ann.text(), self.ben.text()), ("qabc", "qabc"))
        self.assertEqual(self.ann.heads(), self.ben.heads())

    def test_a_socket_pair(self):
        one, other = socket.socketpair()
        with one, other:
            entered = self.both(lambda: self.ann.exchange(one), lambda: self.ben.exchange(other, role="server"))
        self.assertEqual(entered, (1, 1))
        self.same()

    def test_two_pipes(self):
        (there, to_there), (back, to_back) = os.pipe(), os.pipe()
        with open(back, "rb") as a, open(to_there, "wb") as b, open(there, "rb", 0) as c, open(to_back, "wb", 0) as d:
            entered = self.both(lambda: self.ann.exchange(a, b), lambda: self.ben.exchange(c, d, role="server"))
        self.assertEqual(entered, (1, 1))
        self.same()

    def test_one_stream_that_is_both(self):
        one, other = socket.socketpair()
        with one, other, one.makefile("rwb") as a, other.makefile("rwb", buffering=0) as b:
            entered = self.both(lambda: self.ann.exchange(a), lambda: self.ben.exchange(b, role="server"))
        self.assertEqual(entered, (1, 1))
        self.same()

    def test_a_stream_that_ends(self):
        one, other = socket.socketpair()
        other.close()
        with one, self.assertRaises(ConnectionError):
            self.ann.exchange(one)
        (there, to_there) = os.pipe()
        os.close(to_there)
        with open(there, "rb") as a, open(self.folder / "sent", "wb") as b, self.assertRaises(ConnectionError):
            self.ann.exchange(a, b)
        self.assertEqual((self.folder / "sent").read_bytes(), HELLO)
        self.assertEqual(self.ann.text(), "abc")

    def test_a_stream_that_takes_three_bytes_at_a_time(self):
        class Slow(io.RawIOBase):
            took = b""

            def writable(self):
                return True

            def write(self, data):
                self.took += bytes(data[:3])
                return len(data[:3])

        slow = Slow()
        with self.assertRaises(ConnectionError):
            self.ann.exchange(io.BytesIO(), slow)
        self.assertEqual(slow.took, HELLO)

    def test_streams_that_do_not_wait(self):
        (there, to_there) = os.pipe()
        os.set_blocking(there, False)
        with open(there, "rb", 0) as a, open(to_there, "wb", 0) as b, self.assertRaises(BlockingIOError):
            self.ann.exchange(a, io.BytesIO())

    def test_another_session_begun_meanwhile_is_no_success(self):
        ann = self.ann

        class Other:
            def write(self, data):
                ann.begin("server")

        with self.assertRaises(textpeer.Unexpected):
            ann.exchange(io.BytesIO(HELLO), Other())

    def test_a_socket_keeps_its_own_timeout(self):
        one, other = socket.socketpair()
        with one, other:
            one.settimeout(0.2)
            with self.assertRaises(TimeoutError):
                self.ann.exchange(one)
            self.assertEqual(one.gettimeout(), 0.2)
            # It is still open, and a text was sent to nobody.
            self.assertEqual(other.recv(100), HELLO)

    def test_what_is_no_stream(self):
        one, other = socket.socketpair()
        with one, other, open(self.folder / "a", "rb") as file:
            with self.assertRaises(TypeError):
                self.ann.exchange(one, other)
            with self.assertRaises(io.UnsupportedOperation):
                self.ann.exchange(file)
            with self.assertRaises(TypeError):
                self.ann.exchange(5)


class Kinds(Folder):
    """What an editor in memory has one on a file has too, and each meets the other."""

    def each_pair(self, call):
        """Calls it with an editor of each kind and one of each kind, of one document, each with a change of its own."""
        for kinds in itertools.product(("memory", "file"), repeat=2):
            editors = []
            for number, (kind, actor) in enumerate(zip(kinds, (ANN, BEN))):
                editor = Editor(TEXT, actor) if kind == "memory" else self.journal("-".join(kinds) + str(number), actor)
                editor.edit(0, 0, "ab"[number])
                editors.append(editor)
            with self.subTest(kinds=kinds), editors[0], editors[1]:
                call(*editors)
                self.same(*editors)

    def same(self, ann, ben):
        self.assertEqual((ann.text(), ben.text(), ann.change_count(), ben.change_count()), ("ba", "ba", 2, 2))
        self.assertEqual(ann.heads(), ben.heads())
        self.assertEqual(ann.save(), Editor.load(ann.save()).save())

    def test_merges(self):
        def merge(ann, ben):
            self.assertEqual((ann.merge(ben), ben.merge(ann), ann.merge(ben), ann.merge(ann)), (1, 1, 0, 0))
            with Editor(ANN) as other:
                for one, two in (ann, other), (other, ann):
                    with self.assertRaises(textpeer.OtherDocument):
                        one.merge(two)

        self.each_pair(merge)

    def test_changes(self):
        def apply(ann, ben):
            entered = ann.apply(ben.change_bytes(0)), ben.apply(ann.change_bytes(0)), ann.apply(ben.change_bytes(0))
            self.assertEqual(entered, (1, 1, 0))

        self.each_pair(apply)

    def test_links(self):
        def exchange(ann, ben):
            to_ben, to_ann = ann.link(), ben.link()
            entered = sent = 0
            while messages := [(link, message) for link in (to_ben, to_ann) if (message := link.generate())]:
                for link, message in messages:
                    entered += (to_ann if link is to_ben else to_ben).receive(message)
                sent += len(messages)
                self.assertLess(sent, 12)
            self.assertEqual(entered, 2)

        self.each_pair(exchange)

    def test_sessions(self):
        def exchange(ann, ben):
            one, other = socket.socketpair()
            with one, other:
                one.settimeout(30)
                other.settimeout(30)
                thread = threading.Thread(target=ben.exchange, args=(other,), kwargs={"role": "server"})
                thread.start()
                self.assertEqual(ann.exchange(one), 1)
                thread.join(60)

        self.each_pair(exchange)

    def test_what_came_is_on_the_disk_with_the_next_edit(self):
        ann, notes = Editor(TEXT, ANN), self.journal("notes", BEN)
        ann.edit(0, 0, "abc")
        self.assertEqual((notes.apply(ann.change_bytes(0)), notes.text()), (1, "abc"))
        notes.edit(3, 0, "d")
        notes.close()
        self.assertEqual(self.program("text", "notes"), "abcd\n")

    def test_the_most_links(self):
        for editor in Editor(TEXT), self.journal("notes"):
            for number in range(1022):
                self.assertEqual(editor.link().number, number)
            with self.assertRaises(textpeer.TooManyLinks):
                editor.link()


class Stranger:
    """A server on this machine that does one thing to whoever connects."""

    def __init__(self, act):
        self.listener = socket.create_server(("127.0.0.1", 0))
        self.address = f"127.0.0.1:{self.listener.getsockname()[1]}"
        self.came = b""
        self.act, self.thread = act, threading.Thread(target=self.serve, daemon=True)
        self.thread.start()

    def serve(self):
        connection, _ = self.listener.accept()
        with connection:
            connection.settimeout(60)
            try:
                self.act(connection)
                while data := connection.recv(1 << 16):
                    self.came += data
            except ConnectionError:
                pass

    def end(self):
        """All that came until the connection was closed."""
        self.thread.join(60)
        self.listener.close()
        return self.came


class Network(Folder):
    """`sync`, with the program's server and with strangers."""

    def setUp(self):
        super().setUp()
        self.notes = self.journal("notes", ANN)
        self.notes.edit(0, 0, "abc")

    def test_the_program_serves(self):
        for number, (host, listens) in enumerate((("127.0.0.1", "127.0.0.1"), ("[::1]", "[::1]"), ("localhost", "127.0.0.1"))):
            if host == "[::1]" and not has_six():
                continue
            name = f"server-{number}"
            with SharedEditor.create(self.folder / name, TEXT, BEN) as ben:
                ben.edit(0, 0, "q")
            serve = [PROGRAM, "serve", name, f"{listens}:0", "--sessions", "1"]
            with SharedEditor.create(self.folder / f"client-{number}", TEXT, ANN) as notes, subprocess.Popen(
                serve, cwd=self.folder, stdout=subprocess.PIPE, text=True
            ) as server:
                notes.edit(0, 0, "abc")
                port = server.stdout.readline().split()[1]
                self.assertEqual(notes.sync(f"{host}:{port}", timeout=30), 1)
                self.assertEqual((server.stdout.read(), server.wait(30)), ("served 1\n", 0))
                self.assertEqual(notes.text(), "qabc")
            self.assertEqual(self.program("text", name), "qabc\n")

    def test_the_program_serves_an_editor_in_memory(self):
        with SharedEditor.create(self.folder / "server", TEXT, BEN) as ben:
            ben.edit(0, 0, "q")
        serve = [PROGRAM, "serve", "server", "127.0.0.1:0", "--sessions", "1"]
        with Editor(TEXT, ANN) as notes, subprocess.Popen(serve, cwd=self.folder, stdout=subprocess.PIPE, text=True) as server:
            notes.edit(0, 0, "abc")
            self.assertEqual(notes.sync(f"127.0.0.1:{server.stdout.readline().split()[1]}", timeout=30), 1)
            self.assertEqual((server.stdout.read(), server.wait(30), notes.text()), ("served 1\n", 0, "qabc"))
        self.assertEqual(self.program("text", "server"), "qabc\n")

    def test_the_program_over_pipes(self):
        self.program("new", "other")
        with SharedEditor.open(self.folder / "other") as other:
            self.assertEqual(other.text(), "")
        self.notes.close()
        (self.folder / "other").write_bytes((self.folder / "notes").read_bytes())
        self.program("edit", "other", "--at", "3", "--del", "0", "--text", "def")
        words = [PROGRAM, "session", "other"]
        with SharedEditor.open(self.folder / "notes") as notes, subprocess.Popen(
            words, cwd=self.folder, stdin=subprocess.PIPE, stdout=subprocess.PIPE, stderr=subprocess.PIPE
        ) as program:
            notes.edit(0, 0, ">")
            self.assertEqual(notes.exchange(program.stdout, program.stdin), 1)
            self.assertEqual((program.wait(30), program.stderr.read()), (0, b"applied 1\n"))
            self.assertEqual(notes.text(), ">abcdef")
        self.assertEqual(self.program("text", "other"), ">abcdef\n")

    def test_garbage(self):
        stranger = Stranger(lambda connection: connection.sendall(b"SSH-2.0-OpenSSH_9.2p1\r\n"))
        with self.assertRaises(textpeer.Frame):
            self.notes.sync(stranger.address, timeout=30)
        self.assertEqual(stranger.end(), HELLO + refusal_frame(3))
        self.assertEqual(self.notes.text(), "abc")
        self.test_the_program_serves()

    def test_much_garbage(self):
        def flood(connection):
            # A frame of a kind that there isn't, and more than the stranger's system takes at once.
            connection.sendall(bytes.fromhex("01000000" "07") + bytes(1 << 25))

        stranger = Stranger(flood)
        with self.assertRaises(textpeer.Frame):
            self.notes.sync(stranger.address, timeout=30)
        self.assertTrue(stranger.end() in (b"", HELLO, HELLO + refusal_frame(3)))
        self.assertEqual(self.notes.text(), "abc")

    def test_another_document(self):
        stranger = Stranger(lambda connection: connection.sendall(bytes.fromhex("00000012" "00" "02") + bytes(16)))
        with self.assertRaises(textpeer.OtherDocument) as caught:
            self.notes.sync(stranger.address, timeout=30)
        self.assertEqual(caught.exception.status, 603)
        self.assertEqual(stranger.end(), HELLO + refusal_frame(1))

    def test_nobody_listens(self):
        with socket.socket() as bound:
            bound.bind(("127.0.0.1", 0))
            with self.assertRaises(ConnectionRefusedError):
                self.notes.sync(f"127.0.0.1:{bound.getsockname()[1]}", timeout=30)

    def test_silence(self):
        stranger = Stranger(lambda connection: None)
        start = time.monotonic()
        with self.assertRaises(TimeoutError):
            self.notes.sync(stranger.address, timeout=0.3)
        took = time.monotonic() - start
        self.assertTrue(0.25 < took < 10, took)
        # The connection was closed: the stranger's stream has ended. So has the session.
        self.assertEqual((stranger.end(), self.notes._session), (HELLO, None))
        self.assertEqual((self.notes.text(), self.notes.begin().data_to_send()), ("abc", HELLO))

    def test_a_byte_now_and_then(self):
        def drip(connection):
            for byte in HELLO:
                connection.sendall(bytes([byte]))
                time.sleep(0.05)

        stranger = Stranger(drip)
        start = time.monotonic()
        with self.assertRaises(TimeoutError):
            self.notes.sync(stranger.address, timeout=0.5)
        self.assertLess(time.monotonic() - start, 10)
        stranger.end()

    def test_an_early_end(self):
        stranger = Stranger(lambda connection: connection.shutdown(socket.SHUT_WR))
        with self.assertRaises(ConnectionError):
            self.notes.sync(stranger.address, timeout=30)
        stranger.end()

    def test_what_came_stays(self):
        # The other side has a change, and this one learns of it before the other one falls silent.
        with SharedEditor.create(self.folder / "other", TEXT, BEN) as other:
            other.edit(0, 0, "q")

            def half(connection):
                session = other.begin("server")
                while session.entered == 0:
                    session.receive_data(connection.recv(1 << 16))
                    connection.sendall(session.data_to_send())

            stranger = Stranger(half)
            with self.assertRaises(TimeoutError):
                self.notes.sync(stranger.address, timeout=1)
            stranger.end()
        self.assertEqual((self.notes.text(), self.notes.change_count()), ("qabc", 2))
        self.notes.close()
        self.assertEqual(self.program("text", "notes"), "qabc\n")

    def test_sessions_wait_for_one_another(self):
        silent = Stranger(lambda connection: None)
        waits = threading.Thread(target=lambda: self.assertRaises(TimeoutError, self.notes.sync, silent.address, 3))
        waits.start()
        while self.notes._session is None:
            time.sleep(0.01)
        with self.assertRaises(TimeoutError):
            self.notes.sync(silent.address, timeout=0.2)
        self.assertTrue(waits.is_alive())
        # Meanwhile it reads and edits.
        self.notes.edit(3, 0, "d")
        self.assertEqual(self.notes.text(), "abcd")
        waits.join(60)
        self.assertEqual(silent.end(), HELLO)

    def test_another_session_in_its_place(self):
        begun = threading.Event()

        def wait(connection):
            begun.wait(60)
            connection.sendall(HELLO)

        stranger, caught = Stranger(wait), []

        def sync():
            try:
                caught.append(self.notes.sync(stranger.address, timeout=30))
            except textpeer.Refused as refused:
                caught.append(type(refused))

        waits = threading.Thread(target=sync)
        waits.start()
        while self.notes._session is None:
            time.sleep(0.01)
        other = self.notes.begin("server")
        begun.set()
        waits.join(60)
        self.assertEqual((caught, stranger.end()), ([textpeer.Unexpected], HELLO))
        self.assertFalse(other.is_over)

    def test_a_close_ends_a_session(self):
        silent = Stranger(lambda connection: None)
        caught = []

        def sync():
            try:
                self.notes.sync(silent.address, timeout=1)
            except Exception as error:
                caught.append(type(error))

        waits = threading.Thread(target=sync)
        waits.start()
        while self.notes._session is None:
            time.sleep(0.01)
        self.notes.close()
        SharedEditor.open(self.folder / "notes").close()
        waits.join(60)
        self.assertEqual((caught, silent.end()), ([TimeoutError], HELLO))

    def test_addresses(self):
        for address, place in (
            ("127.0.0.1:7000", ("127.0.0.1", 7000)),
            ("[::1]:7000", ("::1", 7000)),
            ("notes.example:65535", ("notes.example", 65535)),
        ):
            self.assertEqual(place_of(address), place)
        for bad in "", ":7000", "127.0.0.1", "127.0.0.1:", "127.0.0.1:0", "127.0.0.1:65536", "::1:7000", "[]:7000", "a:-1", "a:\u0661":
            with self.assertRaises(ValueError):
                self.notes.sync(bad)
        with self.assertRaises(TypeError):
            self.notes.sync(("127.0.0.1", 7000))
        for bad in 0, -1, float("nan"):
            with self.assertRaises(ValueError):
                self.notes.sync("127.0.0.1:7000", timeout=bad)


def has_six():
    """Whether this machine has the address ::1."""
    try:
        socket.create_server(("::1", 0), family=socket.AF_INET6).close()
    except OSError:
        return False
    return True


if __name__ == "__main__":
    unittest.main()
