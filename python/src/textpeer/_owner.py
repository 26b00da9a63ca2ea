"""The owner of an editor of the engine's, which one thread uses at a time, in the process that opened it."""
from __future__ import annotations

import ctypes
import os
import threading
import weakref
from os import getpid
from types import TracebackType
from typing import Any, NoReturn, Optional, SupportsIndex, Type, TypeVar

from ._library import Handle, library
from .refusals import Forked, refusal

Self = TypeVar("Self", bound="Owner")


def new_handle(function: Any, *arguments: Any) -> ctypes.c_void_p:
    """The handle that a function of the engine makes, whose last argument is where it goes."""
    at = ctypes.c_void_p()
    status = function(*arguments, ctypes.byref(at))
    if status:
        raise refusal(status)
    return at


class Single:
    """What is one thing in the engine: it is neither copied nor pickled, since no second object may stand for it."""

    _instead: str
    """What to do instead of copying it, as a sentence goes on."""

    def _refuse_copy(self) -> NoReturn:
        raise TypeError(f"{type(self).__name__} is neither copied nor pickled: {self._instead}")

    def __copy__(self) -> NoReturn:
        """Refused: a TypeError."""
        self._refuse_copy()

    def __deepcopy__(self, memo: Any) -> NoReturn:
        """Refused: a TypeError."""
        self._refuse_copy()

    def __reduce__(self) -> NoReturn:
        """Refused: a TypeError."""
        self._refuse_copy()

    def __reduce_ex__(self, protocol: SupportsIndex) -> NoReturn:
        """Refused: a TypeError."""
        self._refuse_copy()


def _give_back(handle: Handle, lock: threading.RLock, process: int) -> None:
    """Frees the handle, once no call of another thread is under way, as one may be where the interpreter ends. A
    process that was forked leaves it: it isn't its own."""
    if getpid() == process:
        with lock:
            library.tp_free(handle)


# All editors of this process, for `_let_go`.
_owners: weakref.WeakSet[Owner] = weakref.WeakSet()


def _let_go() -> None:
    """In a process that was just forked: gives back its copies of the editors, without which it would keep the locks
    of their files. One in which another thread was within a call is left as it is, since its memory is in disorder."""
    for owner in list(_owners):
        if owner._mutex.acquire(blocking=False):
            if owner._free.detach():
                library.tp_free(owner._handle)
            owner._mutex.release()


os.register_at_fork(after_in_child=_let_go)


class Owner(Single):
    """An editor of the engine's: how it is asked, and its end."""

    _instead = "`fork` makes a second editor of its document, and `save` gives its bytes for `load`"

    def _own(self, at: ctypes.c_void_p) -> None:
        """Takes the handle, and gives it back at its end."""
        self._mutex = threading.RLock()
        self._handle = Handle(at.value)
        self._process = getpid()
        self._free = weakref.finalize(self, _give_back, self._handle, self._mutex, self._process)
        _owners.add(self)

    @property
    def _is_forked(self) -> bool:
        """Whether this is another process than the one that opened it."""
        return getpid() != self._process

    @property
    def _lock(self) -> threading.RLock:
        """Its lock, which one thread has at a time: each call takes it. `Forked` in another process, where a thread
        that isn't there may have it."""
        if getpid() != self._process:
            raise Forked(self._process)
        return self._mutex

    # ---- its end

    @property
    def closed(self) -> bool:
        """Whether it was closed."""
        return not self._free.alive

    def close(self) -> None:
        """Gives back all that it has. Every later call raises ValueError, but for another `close`, which does
        nothing. In a process that was forked it does nothing either."""
        if not self._is_forked:
            with self._mutex:
                self._free()

    def __enter__(self: Self) -> Self:
        return self

    def __exit__(
        self, kind: Optional[Type[BaseException]], error: Optional[BaseException], where: Optional[TracebackType]
    ) -> None:
        self.close()

    # ---- how the engine is asked

    def _ask(self, function: Any, *arguments: Any) -> Any:
        """What a function of the engine answers."""
        with self._lock:
            if self.closed:
                raise ValueError("the editor is closed")
            return function(ctypes.byref(self._handle), *arguments)

    def _do(self, function: Any, *arguments: Any) -> None:
        """Calls a function that answers a status."""
        status = self._ask(function, *arguments)
        if status:
            raise refusal(status)

    def _copy(self, length: int) -> bytes:
        """The engine's last answer, which has this length."""
        out = ctypes.create_string_buffer(max(1, length))
        copied: int = self._ask(library.tp_answer, out, length)
        return out.raw[:copied]

    def _answer(self, function: Any, *arguments: Any) -> bytes:
        """The bytes that a function answers whose last argument is where their number goes."""
        length = ctypes.c_size_t()
        with self._lock:
            self._do(function, *arguments, ctypes.byref(length))
            return self._copy(length.value)

    def _count(self, function: Any, *arguments: Any) -> int:
        """The number that a function writes to its last argument."""
        count = ctypes.c_size_t()
        self._do(function, *arguments, ctypes.byref(count))
        return count.value
