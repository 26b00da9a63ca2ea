"""What changes say: `Change`, and how the engine's answers become one."""
from __future__ import annotations

from dataclasses import dataclass
from typing import Tuple

from ._arguments import hashes_of
from ._library import FlatChange


@dataclass(frozen=True)
class Change:
    """What an applied change says: who made it, when, after which others, and how much it does."""

    hash: bytes
    """The SHA-256 of its bytes, 32 bytes: its name in `Editor.heads` and in `dependencies`."""

    actor: bytes
    """Who made it, 16 bytes."""

    seq: int
    """Its number among its actor's changes, from 1."""

    time: int
    """When it was made, as whoever made it counts time."""

    message: str
    """What was said of it; it may be empty."""

    dependencies: Tuple[bytes, ...]
    """The hashes of the changes that it depends on, rising: the heads of the text on which it was made."""

    inserted: int
    """How many characters it inserts."""

    deleted: int
    """How many characters it deletes, also those that another change deletes too."""


def change_of(flat: FlatChange, named: bytes) -> Change:
    """The change of its numbers, and of the hashes that it depends on with its message after them."""
    end = 32 * flat.deps
    return Change(
        hash=bytes(flat.hash),
        actor=bytes(flat.actor),
        seq=flat.seq,
        time=flat.time,
        message=named[end:].decode(),
        dependencies=hashes_of(named[:end]),
        inserted=flat.inserted,
        deleted=flat.deleted,
    )
