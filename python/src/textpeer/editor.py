"""An editor of a text: `Editor`, in memory, with all that one on a file has too, and its links to others."""
from __future__ import annotations

import ctypes
import socket
import threading
from typing import (
    Any,
    Callable,
    Iterable,
    Iterator,
    List,
    NamedTuple,
    Optional,
    SupportsIndex,
    Tuple,
    Type,
    TypeVar,
    Union,
    overload,
)

from ._arguments import (
    BytesLike,
    Heads,
    Splice,
    SpliceLike,
    actor_of,
    flat_heads,
    flat_splices,
    hashes_of,
    sixteen_bytes,
    some_bytes,
    utf8,
    whole,
)
from ._library import Element, FlatChange, FlatSplice, library
from ._owner import Owner, Single, new_handle
from ._streams import clock, hold_over_socket, hold_over_streams, one_timeout, place_of
from .changes import Change, change_of
from .refusals import Forked
from .sessions import Reader, Role, Session, Stream, Writer

Self = TypeVar("Self", bound="Editor")

# The number of a side, by its name.
_ROLES = {"client": 0, "server": 1}

# For how many differences there is room at first; where there are more they are asked for again.
_ROOM = 64


class Cursor(NamedTuple):
    """A position that stays where it is while the text changes: a character, by the identifier of its element."""

    counter: int
    """The element's counter, from 1 to 2^48 - 1."""

    actor: bytes
    """The element's actor, 16 bytes."""


class Editor(Owner):
    """A document in memory: a text, all the changes that made it, links to others, and one session at a time. Nothing
    of it is written anywhere; a `SharedEditor` has all the same, on a journal in a file.

    All its edits are by one actor, 16 bytes: under one actor one copy of a document alone may edit. Where none is
    given it is drawn by the system.

    It is freed by `close`, at the end of a ``with``, or when it is collected. Threads may share it: its calls come
    one after another, and so do its sessions. Another thread may read and edit while one waits for the other side of
    a session. A process that is forked may not: its calls are refused as `Forked`, but for `close`, which does nothing
    there. It is neither copied nor pickled: a TypeError. Positions and lengths count the characters of a str. A call
    that is refused leaves the document as it was, but where it says otherwise.
    """

    def __init__(self, identifier: BytesLike, actor: Optional[BytesLike] = None) -> None:
        """An empty document with this identifier, 16 bytes. Refused for want of memory alone (1)."""
        identifier, actor = sixteen_bytes(identifier, "an identifier"), actor_of(actor)
        self._take(new_handle(library.tp_open), actor)
        self._ask(library.tp_new, identifier)

    def _take(self, at: ctypes.c_void_p, actor: bytes) -> None:
        """Takes what the engine made, to be edited under the actor."""
        self._own(at)
        self._actor = actor
        self._session: Optional[Session] = None
        self._turn = threading.RLock()

    @classmethod
    def load(cls: Type[Self], saved: BytesLike, actor: Optional[BytesLike] = None) -> Self:
        """An editor in memory of the document whose saved file these bytes are, as `save` gives them and ``textpeer
        save`` writes them.

        Refused past 300: `BadMagic`, `Truncated`, `BadDigest`, `Damaged`, or 305 where a change doesn't fit those
        before it; and for want of memory.
        """
        saved = some_bytes(saved, "a saved file")
        editor = cls(bytes(16), actor)
        try:
            editor._do(library.tp_load, saved, len(saved))
        except BaseException:
            editor.close()
            raise
        return editor

    def fork(self, actor: Optional[BytesLike] = None) -> Editor:
        """An editor in memory of a copy of the document, with all changes that entered, which the actor edits. What
        each of both makes from then on the other gets by `merge`, or as from any other peer. It has no links and no
        session. Refused for want of memory alone.
        """
        actor = actor_of(actor)
        forked = Editor.__new__(Editor)
        forked._take(new_handle(self._ask, library.tp_fork, actor), actor)
        return forked

    def __repr__(self) -> str:
        name = f"{type(self).__module__.split('.')[0]}.{type(self).__qualname__}"
        if self._is_forked:
            return f"<{name}, of process {self._process}>"
        with self._lock:
            if self.closed:
                return f"<{name}, closed>"
            return f"<{name} {self.identifier.hex()}, {len(self)} characters, {self.change_count()} changes>"

    # ---- what is read

    @property
    def identifier(self) -> bytes:
        """The identifier of the document, 16 bytes. Only copies of one document exchange changes."""
        out = ctypes.create_string_buffer(16)
        self._ask(library.tp_id, out)
        return out.raw

    @property
    def actor(self) -> bytes:
        """The actor of its edits, 16 bytes."""
        return self._actor

    def __len__(self) -> int:
        """How many characters the text has, as ``len(editor.text())``."""
        found: int = self._ask(library.tp_len)
        return found

    def __bool__(self) -> bool:
        """An editor is true, also with an empty text."""
        return True

    def text(self) -> str:
        """The text. Refused for want of memory alone."""
        return self._answer(library.tp_text).decode()

    def save(self) -> bytes:
        """The saved file of the document, for `load`. Changes that wait for others aren't in it. Refused for want of
        memory alone."""
        return self._answer(library.tp_save)

    def cursor(self, at: SupportsIndex) -> Cursor:
        """A cursor at the character at a position, from 0. `OutOfRange` where the text ends before it."""
        found = Element()
        self._do(library.tp_cursor, whole(at, "a position"), ctypes.byref(found))
        return Cursor(found.counter, bytes(found.actor))

    def position(self, cursor: Union[Cursor, Tuple[int, bytes]]) -> int:
        """How many characters are before the cursor's, which may have been deleted since. `UnknownElement` where the
        document hasn't its element."""
        counter, actor = cursor
        actor = sixteen_bytes(actor, "an actor")
        element = Element(whole(counter, "a counter"), (ctypes.c_uint8 * 16)(*actor))
        return self._count(library.tp_cursor_position, ctypes.byref(element))

    # ---- its changes

    def heads(self) -> List[bytes]:
        """The hashes of the heads, 32 bytes each, rising: two copies with the same heads have the same text."""
        return list(hashes_of(self._answer(library.tp_heads)))

    def change_count(self) -> int:
        """How many changes are applied."""
        found: int = self._ask(library.tp_change_count)
        return found

    def change(self, number: SupportsIndex) -> Change:
        """What the applied change with this number says, from 0 in the order in which they entered. `NoChange` where
        there are fewer."""
        flat = FlatChange()
        return change_of(flat, self._answer(library.tp_change_describe, whole(number, "a number"), ctypes.byref(flat)))

    def changes(self, start: SupportsIndex = 0) -> Iterator[Change]:
        """The changes in the order in which they entered, from the one with this number on: all where none is named,
        and those that came since with what `change_count` was then. Those that enter meanwhile come too."""
        number = whole(start, "a number")
        while number < self.change_count():
            yield self.change(number)
            number += 1

    def change_bytes(self, number: SupportsIndex) -> bytes:
        """The bytes of the change with this number, which another editor's `apply` takes. Refused as `change`."""
        return self._answer(library.tp_change_at, whole(number, "a number"))

    # ---- earlier texts, and what changed

    def text_at(self, heads: Heads) -> str:
        """The text at heads, as `heads` gave them then: that of these changes and of all that they depend on. No
        hash gives the empty text. `UnknownHead` where one is of no applied change, and refused for want of memory."""
        flat = flat_heads(heads)
        return self._answer(library.tp_text_at, flat, len(flat)).decode()

    def len_at(self, heads: Heads) -> int:
        """How many characters the text at heads has. Refused as `text_at`."""
        flat = flat_heads(heads)
        return self._count(library.tp_len_at, flat, len(flat))

    def differences(self, from_heads: Heads, to_heads: Heads) -> List[Splice]:
        """What changed from the text at some heads to that at others: splices that lead from one to the other, rising,
        each on the text that those before it leave, as `edit_many` takes them.

        They are exact by elements: what both texts show is left as it is, and what was deleted and written anew is
        another one. No two of them could be one. Refused as `text_at`.
        """
        start, end = flat_heads(from_heads), flat_heads(to_heads)
        return self._differences(library.tp_differences, start, len(start), end, len(end))

    def differences_since(self, heads: Heads) -> List[Splice]:
        """What changed from the text at heads to the text now, as `differences`. It goes over the whole text only
        where much came since."""
        flat = flat_heads(heads)
        return self._differences(library.tp_differences_since, flat, len(flat))

    def _differences(self, function: Any, *heads: Any) -> List[Splice]:
        count, room = ctypes.c_size_t(_ROOM), 0
        with self._lock:
            while room < count.value:
                room = count.value
                places = (FlatSplice * room)()
                length = ctypes.c_size_t()
                self._do(function, *heads, places, room, ctypes.byref(count), ctypes.byref(length))
            texts = self._copy(length.value)
        splices, start = [], 0
        for place in places[: count.value]:
            end = start + place.len
            splices.append(Splice(place.at, getattr(place, "del"), texts[start:end].decode()))
            start = end
        return splices

    # ---- what is written

    def edit(
        self, at: SupportsIndex, delete: SupportsIndex, text: str, time: SupportsIndex = 0, message: str = ""
    ) -> Optional[bytes]:
        """Deletes `delete` characters from `at` on and inserts `text` there, as one change. Its hash, 32 bytes; None
        where nothing was asked.

        `time` is a number as the caller counts time, and `message` has up to 65,535 bytes as UTF-8: both are kept
        with the change. Refused as `OutOfRange` where the text ends before, `TooManyOps` past 65,536 characters in
        all, `TooLong`, and for want of memory. In a file the change is on the disk then: `JournalFailed`, an OSError,
        where the journal can't be written, or its file was moved, replaced or cut, and `Stopped` from then on.
        """
        inserted, said = utf8(text, "a text"), utf8(message, "a message")
        return (
            self._answer(
                library.tp_edit,
                self._actor,
                whole(at, "a position"),
                whole(delete, "a count"),
                inserted,
                len(inserted),
                whole(time, "a time"),
                said,
                len(said),
            )
            or None
        )

    def edit_many(
        self, splices: Iterable[SpliceLike], time: SupportsIndex = 0, message: str = ""
    ) -> Optional[bytes]:
        """Does each of the splices ``(at, delete, text)`` in turn, on the text that the ones before it leave, all as
        one change. Its hash, 32 bytes; None where nothing was asked.

        All else is as with `edit`: `TooManyOps` past 65,536 characters that come or go in all of them, and nothing was
        done then. The time grows with the number of splices where these rise or fall in position.
        """
        numbers, count, texts = flat_splices(splices)
        said = utf8(message, "a message")
        return (
            self._answer(
                library.tp_edit_many,
                self._actor,
                numbers,
                count,
                texts,
                len(texts),
                whole(time, "a time"),
                said,
                len(said),
            )
            or None
        )

    # ---- what others have

    def _entered(self, function: Any, *arguments: Any) -> int:
        """How many changes enter by a call."""
        with self._lock:
            before = self.change_count()
            self._do(function, *arguments)
            return self.change_count() - before

    def apply(self, change: BytesLike) -> int:
        """Receives the bytes of a change. How many changes entered: none where it was there, or waits for what it
        depends on; with it those that waited for it. In a file they are on the disk with the next edit, or before the
        next message or session tells of them.

        Refused past 400 where the bytes are no change, as `PendingFull` where more than 1,024 would wait, and for
        want of memory: what had entered by then stays. `JournalFailed` and `Stopped` are as with `edit`.
        """
        change = some_bytes(change, "a change")
        return self._entered(library.tp_apply, change, len(change))

    def merge(self, other: Editor) -> int:
        """Receives the changes of the other editor that are absent here, as `apply` does. How many entered. The other
        one isn't changed.

        `OtherDocument` where the identifiers differ; for want of memory what had entered by then stays. `Stopped` is
        also of the other one.
        """
        if not isinstance(other, Editor):
            raise TypeError(f"an editor is merged with another one, not {type(other).__name__}")
        if other is self:
            return 0
        first, second = sorted((self, other), key=id)
        with first._lock, second._lock:
            if other.closed:
                raise ValueError("the editor is closed")
            return self._entered(library.tp_merge, ctypes.byref(other._handle))

    def link(self) -> Link:
        """Opens a link to another peer, of which nothing is known yet. `TooManyLinks` where 1,022 are open, and
        refused for want of memory."""
        return Link(self, self._count(library.tp_link))

    # ---- sessions

    def begin(self, role: Role = "client") -> Session:
        """Begins a session by bytes, as the ``"client"``, the side that connected, or the ``"server"``. One that goes
        on is over then. `Stopped` after the journal failed, and refused for want of memory: no session goes on
        then."""
        if role not in _ROLES:
            raise ValueError(f'a role is "client" or "server", not {role!r}')
        with self._lock:
            self._session = None
            first = self._answer(library.tp_shared_begin, _ROLES[role])
            self._session = Session(self, first)
            return self._session

    def sync(self, address: str, timeout: Optional[float] = 60.0) -> int:
        """Exchanges changes with the server at the address, as ``textpeer serve`` is: afterwards each side has what
        both had. How many changes entered here.

        The address is ``HOST:PORT``, with brackets around an IPv6 host. The whole takes at most `timeout` seconds,
        but for the look-up of a name, and where the host has several addresses that time for each that doesn't answer;
        None is no limit.

        Raises OSError where there is no connection, ConnectionError where it ends too early, TimeoutError where the
        time is over, and each refusal of `Session.receive_data`. The connection is closed then, what was received
        stays, and the next call goes on from there.
        """
        place, left = place_of(address), clock(timeout)
        return self._in_turn(left, lambda: self._sync(place, left))

    def _sync(self, place: Tuple[str, int], left: Callable[[], Optional[float]]) -> int:
        with one_timeout():
            connection = socket.create_connection(place, timeout=left())
        with connection:
            return hold_over_socket(self.begin(), connection, left)

    @overload
    def exchange(self, reader: Union[socket.socket, Stream], *, role: Role = "client") -> int:
        ...

    @overload
    def exchange(self, reader: Reader, writer: Writer, *, role: Role = "client") -> int:
        ...

    def exchange(self, reader: Any, writer: Any = None, *, role: Role = "client") -> int:
        """Exchanges changes over a connected socket, or over a stream of bytes that is read and one that is written,
        as pipes and what ``subprocess`` gives; with one stream it is both. How many changes entered here.

        Sockets and streams wait as they are set to: a socket's own timeout is for each wait, a stream has none. They
        are neither closed nor shut down. Raises what `sync` does, and what the streams do.
        """
        if not isinstance(reader, socket.socket):
            target = reader if writer is None else writer
            if not hasattr(reader, "read") or not hasattr(target, "write"):
                raise TypeError("a session is over a socket, or over a stream to read and one to write")
            return self._in_turn(clock(None), lambda: hold_over_streams(self.begin(role), reader, target))
        if writer is not None:
            raise TypeError("a socket is both read and written")
        wait = reader.gettimeout()
        return self._in_turn(clock(None), lambda: hold_over_socket(self.begin(role), reader, lambda: wait))

    def _in_turn(self, left: Callable[[], Optional[float]], session: Callable[[], int]) -> int:
        """Holds a session once no other one is held, if that is in time."""
        if self._is_forked:
            raise Forked(self._process)
        wait = left()
        if not self._turn.acquire(timeout=-1 if wait is None else min(wait, threading.TIMEOUT_MAX)):
            raise TimeoutError("timed out")
        try:
            return session()
        finally:
            self._turn.release()


class Link(Single):
    """What an editor knows of another peer, with which it exchanges messages: they may be lost, and come twice, late
    or in any order. `Editor.link` opens one."""

    _instead = "`Editor.link` opens another one"

    def __init__(self, editor: Editor, number: int) -> None:
        self.editor = editor
        self.number = number

    def generate(self) -> Optional[bytes]:
        """The bytes of the next message to the other; None where nothing is to be said. In a file what it tells is on
        the disk first. `TooManyHeads` past 65,535 heads, `NoLink` where the editor has no such link, `JournalFailed`
        and `Stopped` as with `Editor.edit`, and for want of memory."""
        return self.editor._answer(library.tp_generate, self.number) or None

    def receive(self, message: BytesLike) -> int:
        """Receives the bytes of a message of the other. How many changes entered.

        `BadMessage` or `BadChange` where the bytes are no message, `PendingFull` where more than 1,024 changes would
        wait, `NoLink` where the editor has no such link, `JournalFailed` and `Stopped` as with `Editor.edit`, and for
        want of memory: what had entered by then stays.
        """
        message = some_bytes(message, "a message")
        return self.editor._entered(library.tp_receive, self.number, message, len(message))
