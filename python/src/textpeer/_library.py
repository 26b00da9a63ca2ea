"""The engine's library, and what its functions take and answer: ffi/textpeer.h in ctypes."""
from __future__ import annotations

import ctypes
import os
import platform
from pathlib import Path
from typing import Any, Iterable, Iterator, Tuple

NAME = "libtextpeer.so.0"


class Handle(ctypes.Structure):
    """A ``tp_handle``: the address of the engine's editor."""

    _fields_ = [("at", ctypes.c_void_p)]


class Element(ctypes.Structure):
    """A ``tp_element``."""

    _fields_ = [("counter", ctypes.c_uint64), ("actor", ctypes.c_uint8 * 16)]


class FlatSplice(ctypes.Structure):
    """A ``tp_splice``."""

    _fields_ = [("at", ctypes.c_size_t), ("del", ctypes.c_size_t), ("len", ctypes.c_size_t)]


class FlatChange(ctypes.Structure):
    """A ``tp_change``."""

    _fields_ = [
        ("hash", ctypes.c_uint8 * 32),
        ("actor", ctypes.c_uint8 * 16),
        ("seq", ctypes.c_uint64),
        ("time", ctypes.c_uint64),
        ("deps", ctypes.c_size_t),
        ("inserted", ctypes.c_size_t),
        ("deleted", ctypes.c_size_t),
    ]


_STATUS, _SIZE, _NUMBER, _BYTES, _OUT = ctypes.c_uint32, ctypes.c_size_t, ctypes.c_uint64, ctypes.c_char_p, ctypes.c_void_p
_HANDLE, _ELEMENT, _ADDRESS = ctypes.POINTER(Handle), ctypes.POINTER(Element), ctypes.POINTER(ctypes.c_void_p)
_SPLICES, _CHANGE = ctypes.POINTER(FlatSplice), ctypes.POINTER(FlatChange)
_STATUS_TO, _SIZE_TO, _NUMBER_TO = ctypes.POINTER(_STATUS), ctypes.POINTER(_SIZE), ctypes.POINTER(_NUMBER)

# Of each function its name, what it answers, and what it takes.
_FUNCTIONS: Iterable[Tuple[str, Any, Tuple[Any, ...]]] = (
    ("tp_open", _STATUS, (_ADDRESS,)),
    ("tp_free", None, (Handle,)),
    ("tp_answer", _SIZE, (_HANDLE, _OUT, _SIZE)),
    ("tp_new", None, (_HANDLE, _BYTES)),
    ("tp_load", _STATUS, (_HANDLE, _BYTES, _SIZE)),
    ("tp_save", _STATUS, (_HANDLE, _SIZE_TO)),
    ("tp_id", None, (_HANDLE, _OUT)),
    ("tp_len", _SIZE, (_HANDLE,)),
    ("tp_text", _STATUS, (_HANDLE, _SIZE_TO)),
    ("tp_edit", _STATUS, (_HANDLE, _BYTES, _SIZE, _SIZE, _BYTES, _SIZE, _NUMBER, _BYTES, _SIZE, _SIZE_TO)),
    ("tp_edit_many", _STATUS, (_HANDLE, _BYTES, _SPLICES, _SIZE, _BYTES, _SIZE, _NUMBER, _BYTES, _SIZE, _SIZE_TO)),
    ("tp_heads", _STATUS, (_HANDLE, _SIZE_TO)),
    ("tp_change_count", _SIZE, (_HANDLE,)),
    ("tp_change_at", _STATUS, (_HANDLE, _SIZE, _SIZE_TO)),
    ("tp_change_describe", _STATUS, (_HANDLE, _SIZE, _CHANGE, _SIZE_TO)),
    ("tp_cursor", _STATUS, (_HANDLE, _SIZE, _ELEMENT)),
    ("tp_cursor_position", _STATUS, (_HANDLE, _ELEMENT, _SIZE_TO)),
    ("tp_text_at", _STATUS, (_HANDLE, _BYTES, _SIZE, _SIZE_TO)),
    ("tp_len_at", _STATUS, (_HANDLE, _BYTES, _SIZE, _SIZE_TO)),
    ("tp_differences_since", _STATUS, (_HANDLE, _BYTES, _SIZE, _SPLICES, _SIZE, _SIZE_TO, _SIZE_TO)),
    ("tp_differences", _STATUS, (_HANDLE, _BYTES, _SIZE, _BYTES, _SIZE, _SPLICES, _SIZE, _SIZE_TO, _SIZE_TO)),
    ("tp_fork", _STATUS, (_HANDLE, _BYTES, _ADDRESS)),
    ("tp_apply", _STATUS, (_HANDLE, _BYTES, _SIZE)),
    ("tp_merge", _STATUS, (_HANDLE, _HANDLE)),
    ("tp_link", _STATUS, (_HANDLE, _SIZE_TO)),
    ("tp_generate", _STATUS, (_HANDLE, _SIZE, _SIZE_TO)),
    ("tp_receive", _STATUS, (_HANDLE, _SIZE, _BYTES, _SIZE)),
    ("tp_shared_open", _STATUS, (_BYTES, _SIZE, _BYTES, _ADDRESS)),
    ("tp_shared_create", _STATUS, (_BYTES, _SIZE, _BYTES, _BYTES, _ADDRESS)),
    ("tp_shared_begin", _STATUS, (_HANDLE, _STATUS, _SIZE_TO)),
    ("tp_shared_feed", _STATUS, (_HANDLE, _BYTES, _SIZE, _SIZE_TO, _STATUS_TO, _NUMBER_TO)),
    ("tp_shared_end", None, (_HANDLE,)),
)


def _places() -> Iterator[Path]:
    """Where the library may be: beside this file, as in a wheel; as ``ffi/build`` makes it in the clone; in its
    release."""
    here = Path(__file__).resolve().parent
    yield here / NAME
    if here.parent.name == "src":
        clone = here.parent.parent.parent
        yield clone / "ffi" / "out" / NAME
        yield clone / "dist" / f"{platform.machine()}-{platform.system().lower()}" / NAME


def _find() -> str:
    """The library's place: $TEXTPEER_LIB, else the first of the places that has it."""
    named = os.environ.get("TEXTPEER_LIB")
    if named:
        return named
    places = list(_places())
    for place in places:
        if place.is_file():
            return str(place)
    looked = ", ".join(map(str, places))
    raise ImportError(f"textpeer: the engine's library is in none of {looked}; $TEXTPEER_LIB may name it", name="textpeer")


def _load(place: str) -> Any:
    """The library, with its functions declared. Those that open a file keep the system's error for
    `ctypes.get_errno`."""
    try:
        library = ctypes.CDLL(place)
        asking = ctypes.CDLL(place, use_errno=True)
        for name, answer, takes in _FUNCTIONS:
            if name in ("tp_shared_open", "tp_shared_create"):
                setattr(library, name, getattr(asking, name))
            function = getattr(library, name)
            function.restype = answer
            function.argtypes = takes
    except (OSError, AttributeError) as error:
        raise ImportError(f"textpeer: {place} is not the engine's library: {error}", name="textpeer", path=place) from error
    return library


library = _load(_find())
