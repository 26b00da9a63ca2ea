"""What callers give, checked before the engine sees it."""
from __future__ import annotations

import operator
import os
from typing import Any, Iterable, NamedTuple, Optional, SupportsIndex, Tuple, Union

from ._library import FlatSplice

BytesLike = Union[bytes, bytearray, memoryview]
"""What is taken where bytes are asked for."""

SpliceLike = Tuple[SupportsIndex, SupportsIndex, str]
"""What is taken for a splice: a position, how many characters are deleted from it on, and the text that is inserted
there."""

Heads = Iterable[BytesLike]
"""What is taken for heads: hashes of changes, 32 bytes each, in any order."""

StrPath = Union[str, "os.PathLike[str]"]
"""What is taken for the path of a file."""


def some_bytes(value: BytesLike, what: str) -> bytes:
    """The bytes; a TypeError for an int, a str, a list or anything else."""
    if isinstance(value, bytes):
        return value
    if isinstance(value, (bytearray, memoryview)):
        return bytes(value)
    raise TypeError(f"{what} is bytes, not {type(value).__name__}")


def exact_bytes(value: BytesLike, length: int, what: str) -> bytes:
    """The bytes, which are `length` in number; a ValueError for another number."""
    value = some_bytes(value, what)
    if len(value) != length:
        raise ValueError(f"{what} is {length} bytes, not {len(value)}")
    return value


def sixteen_bytes(value: BytesLike, what: str) -> bytes:
    """The bytes, which are sixteen; a ValueError for another number."""
    return exact_bytes(value, 16, what)


def actor_of(value: Optional[BytesLike]) -> bytes:
    """The actor that was given, or one that the system draws."""
    return os.urandom(16) if value is None else sixteen_bytes(value, "an actor")


def flat_heads(heads: Heads) -> bytes:
    """The hashes one after another; a TypeError for a single one, which is no list of them."""
    if isinstance(heads, (bytes, bytearray, memoryview, str)):
        raise TypeError(f"heads are a list of hashes, not {type(heads).__name__}")
    return b"".join([exact_bytes(head, 32, "a head") for head in heads])


def hashes_of(flat: bytes) -> Tuple[bytes, ...]:
    """The hashes, which are one after another."""
    return tuple(flat[at : at + 32] for at in range(0, len(flat), 32))


def whole(value: SupportsIndex, what: str) -> int:
    """The number, from 0 to 2^64 - 1; a ValueError for another one, and a TypeError for what is no whole number."""
    number = operator.index(value)
    if not 0 <= number < 2**64:
        raise ValueError(f"{what} is from 0 to 2^64 - 1, not {number}")
    return number


def utf8(value: str, what: str) -> bytes:
    """The text's UTF-8; a ValueError where it has half of a surrogate pair."""
    if not isinstance(value, str):
        raise TypeError(f"{what} is a str, not {type(value).__name__}")
    return value.encode()


class Splice(NamedTuple):
    """One splice of a text: a tuple of its three fields, as `Editor.edit_many` takes it."""

    at: int
    """How many characters are before it, in the text that the splices before it leave."""

    delete: int
    """How many characters are deleted from there on."""

    text: str
    """What is inserted there."""


def flat_splices(splices: Iterable[SpliceLike]) -> Tuple[Any, int, bytes]:
    """The splices as an array of their numbers, how many there are, and the bytes of their texts, one after another."""
    read = [(whole(at, "a position"), whole(delete, "a count"), utf8(text, "a text")) for at, delete, text in splices]
    numbers = (FlatSplice * max(1, len(read)))(*(FlatSplice(at, delete, len(text)) for at, delete, text in read))
    return numbers, len(read), b"".join(text for _, _, text in read)


def path_bytes(path: StrPath) -> bytes:
    """The path as the system has it; a ValueError where there is a zero in it."""
    name = os.fsencode(path)
    if b"\0" in name:
        raise ValueError("a path has no zero in it")
    return name
