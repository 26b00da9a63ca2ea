"""A text that is shared: `SharedEditor`, on a journal in a file."""
from __future__ import annotations

import ctypes
import os
from typing import Any, Optional

from ._arguments import BytesLike, StrPath, actor_of, path_bytes, sixteen_bytes
from ._library import library
from ._owner import new_handle
from .editor import Editor
from .refusals import Io


class SharedEditor(Editor):
    """An `Editor` of a journal in a file, the same files that ``textpeer`` reads and writes. `open` and `create` make
    one.

    It has the file's lock until it is closed. A change is on the disk before the edit that made it returns, and before
    a message or a session tells of it. The actor is drawn anew for each editor where none is given.

        with SharedEditor.open("notes.journal") as notes:
            notes.edit(len(notes), 0, "a line\\n")
            notes.sync("127.0.0.1:7000")
            print(notes.text())

    `JournalFailed` means that the journal can't be written any more, as on a full disk, or that its path doesn't lead
    to it any more: the file was moved, removed or replaced by another one, as `git checkout` and programs that
    synchronise folders do, or it was cut. What the call did isn't kept for sure, and what was answered before is in
    the old file. From then on it edits and exchanges no more, and such calls are refused as `Stopped`. What it has is
    still read. Close it, put the file back or make room, and open it again: what was on the disk is there.
    """

    _path: str

    def __init__(self, *arguments: Any, **named: Any) -> None:
        """None is made so: a TypeError."""
        raise TypeError("SharedEditor.open and SharedEditor.create make a shared editor")

    @classmethod
    def open(cls, path: StrPath, actor: Optional[BytesLike] = None) -> SharedEditor:
        """Opens the journal in the file at the path, and takes the file's lock. What a crash left of one change
        alone, at the end, is cut off.

        The actor is 16 bytes that no change of the journal has. Refused as `Io`, which is an OSError too, where the
        file isn't there or can't be opened, locked or read: `errno` has what the system said, and `filename` the path.
        As `Busy` where another editor or command has it open, `ActorInUse`, and past 300 where its bytes are no
        journal or are damaged; the file stays as it was then, and ``textpeer recover`` makes another one of all that
        can be had.
        """
        return cls._opened(path, actor, library.tp_shared_open)

    @classmethod
    def create(
        cls, path: StrPath, identifier: Optional[BytesLike] = None, actor: Optional[BytesLike] = None
    ) -> SharedEditor:
        """Begins the journal of a new document in the file at the path, and takes the file's lock. The file may be
        there already where it is empty or has no whole header; any other is refused as `JournalNotEmpty` and stays as
        it was.

        The identifier of the document is 16 bytes; without one they are drawn by the system. Who is to share the text
        begins with a copy of the file. Refused as `open` is.
        """
        drawn = os.urandom(16) if identifier is None else sixteen_bytes(identifier, "an identifier")
        return cls._opened(path, actor, library.tp_shared_create, drawn)

    @classmethod
    def _opened(cls, path: StrPath, actor: Optional[BytesLike], function: Any, *identifier: bytes) -> SharedEditor:
        """An editor of the file, opened by the function of the engine."""
        name, actor = path_bytes(path), actor_of(actor)
        ctypes.set_errno(0)
        try:
            at = new_handle(function, name, len(name), *identifier, actor)
        except Io as refused:
            refused.filename = os.fspath(path)
            if number := ctypes.get_errno():
                refused.errno = number
            raise
        editor = cls.__new__(cls)
        editor._path = os.fspath(path)
        editor._take(at, actor)
        return editor

    @property
    def path(self) -> str:
        """The path of its file, as it was given."""
        return self._path
