"""Sessions of an editor: `Session`, one side of one by bytes, and the streams that one may be held over."""
from __future__ import annotations

import ctypes
from typing import TYPE_CHECKING, Any, Literal, Optional, Protocol

from ._arguments import BytesLike, some_bytes
from ._library import library
from ._owner import Single
from .refusals import refusal_in_session

if TYPE_CHECKING:
    from .editor import Editor

Role = Literal["client", "server"]
"""The side that connected, and the one that it connected to."""


class Reader(Protocol):
    """A stream of bytes that is read: its ``read1`` where it has one, else its ``read``."""

    def read(self, size: int, /) -> Optional[bytes]:
        """At most `size` bytes, none at the end; it may wait for some, but not for all of them."""


class Writer(Protocol):
    """A stream of bytes that is written, and flushed where it has a ``flush``."""

    def write(self, data: bytes, /) -> Any:
        """Writes the bytes."""


class Stream(Reader, Writer, Protocol):
    """A stream that is read and written."""


class Session(Single):
    """One side of a session, by bytes: for an event loop of your own. `Editor.begin` begins one.

    Send what `data_to_send` gives, first of all and after each call of `receive_data`, also after one that was
    refused, since the other side is due a word then, and after the last one.

        session = notes.begin()
        try:
            while not session.is_complete:
                await send(session.data_to_send())
                session.receive_data(await receive())
        finally:
            await send(session.data_to_send())
            session.end()

    A session exchanges what both sides have, and what they make until each has said that it is done. It never waits.
    At most 16,777,220 bytes of a frame that isn't whole yet are held.
    """

    _instead = "`Editor.begin` begins another one"

    def __init__(self, editor: Editor, first: bytes) -> None:
        self._editor, self._due, self._is_complete, self._entered = editor, [first], False, 0

    @property
    def is_complete(self) -> bool:
        """Whether it has ended well: both sides have said that they are done."""
        return self._is_complete

    @property
    def is_over(self) -> bool:
        """Whether it has ended: well, by a refusal, by `end`, or since another one was begun or the editor closed."""
        return self._editor._session is not self or self._editor.closed

    @property
    def entered(self) -> int:
        """How many changes of the other side entered so far."""
        return self._entered

    def data_to_send(self) -> bytes:
        """What is to be sent by now, and wasn't given before; it may be empty."""
        with self._editor._lock:
            due, self._due = b"".join(self._due), []
            return due

    def receive_data(self, data: BytesLike) -> None:
        """Takes bytes of the other side, in whatever pieces they come. In a file a change that enters is on the disk
        before the answer for it is given. Bytes that come after the end of a session that ends well are dropped.

        Each refusal ends the session, and what it had received stays: `Frame`, `Unexpected`, `Version` or
        `OtherDocument` where the other side keeps to no rule or has another document, what it sent where it refused
        itself (701 and further), `BadMessage`, `BadChange` or `PendingFull` for its messages, `JournalFailed` where
        the journal can't be written or was moved, and want of memory. A session that is over is refused as
        `Unexpected`.
        """
        data = some_bytes(data, "what came")
        length, going, entered = ctypes.c_size_t(), ctypes.c_uint32(), ctypes.c_uint64()
        with self._editor._lock:
            if self._editor._session is not self:
                raise refusal_in_session(605)
            status = self._editor._ask(
                library.tp_shared_feed, data, len(data), ctypes.byref(length), ctypes.byref(going), ctypes.byref(entered)
            )
            self._entered = entered.value
            if not going.value:
                self._editor._session = None
                self._is_complete = not status
            self._due.append(self._editor._copy(length.value))
        if status:
            raise refusal_in_session(status)

    def end(self) -> None:
        """Ends it where it goes on, as where its stream has ended: nothing is to be sent then. What it received
        stays."""
        with self._editor._lock:
            if self._editor._session is not self:
                return
            self._editor._session = None
            if not self._editor.closed:
                self._editor._ask(library.tp_shared_end)
