"""Why the engine refuses a call: a class for each name, all of them a :class:`Refused`.

One name may have several statuses, as ``OutOfMemory`` has in each layer: they are one class, and ``status`` tells
them apart.
"""
from __future__ import annotations

from typing import Dict, Type


class Refused(Exception):
    """The engine refused a call: the base of all refusals, and what to catch. Its subclasses are named after them; it
    is raised itself where a change of a saved file or a journal doesn't fit the changes before it (305).

    ``status`` is the number, as docs/C.md lists it, and ``words`` what it says; ``str(error)`` is the name and the
    words, as ``NoChange: there is no applied change with this number``.
    """

    status: int
    words: str

    def __init__(self, status: int, words: str = "") -> None:
        super().__init__(status)
        self.status = status
        self.words = words or _WORDS.get(status, f"status {status}")

    def __str__(self) -> str:
        return f"{type(self).__name__}: {self.words}"


class Forked(RuntimeError):
    """An editor was called in another process than the one that opened it: in one that was forked from it, as each
    worker of a ``multiprocessing.Pool`` is by default. Two processes never write one journal, so it isn't used there.
    The package itself refuses this, and not the engine."""

    process: int

    def __init__(self, process: int) -> None:
        super().__init__(process)
        self.process = process

    def __str__(self) -> str:
        return (
            f"this process was forked from {self.process}, which opened the editor: call it there, and open one here"
            " on a journal of its own, or once the other one is closed"
        )


def refusal(status: int) -> Refused:
    """The refusal with this status, to be raised."""
    return STATUSES.get(status, Refused)(status)


def refusal_in_session(status: int) -> Refused:
    """The refusal with this status in a session, where all from 700 on is the number that the other side sent, which may
    be any of one byte."""
    if status >= 700 and not 700 < status < 706:
        return Other(status, f"the other side refused, and sent the number {status - 700}")
    return refusal(status)


# statuses: made of ffi/statuses.txt by tools/statuses
_WORDS: Dict[int, str] = {
    1: "memory was refused, before a layer below was asked",
    2: "there is no link with this number",
    3: "there is no applied change with this number",
    4: "what should be a text isn't UTF-8",
    5: "the lengths of splices don't add up to the bytes of their texts, or bytes end within a hash",
    101: "the text ends before the position, or before the end of what is to be deleted",
    102: "the last counter of the edit would be past 2^48 - 1",
    103: "the edit has more than 65,536 operations, one for each character that comes or goes",
    104: "the document has more than 65,535 heads",
    105: "a hash that was named as a head is of no applied change",
    106: "the document has no such element",
    107: "more than 1,024 changes would wait for others",
    108: "another change has the hash of the new one",
    109: "memory was refused",
    110: "what came is of another document",
    111: "the message has more than 65,535 bytes, or the change more than 4,194,304",
    112: "the document has 4,294,967,295 changes",
    113: "the change was not kept",
    201: "the bytes are not laid out as a message",
    202: "the bytes of a change within the message are no change",
    203: "the document has more than 65,535 heads, which no message can name",
    204: "more than 1,024 changes would wait for others",
    205: "memory was refused",
    206: "the message is of another document",
    207: "a change of the message was not kept",
    301: "the bytes don't begin as those of such a file do",
    302: "the saved file is not whole",
    303: "the digest at the end of the saved file is not that of the bytes before it",
    304: "a change is damaged, or bytes come after the last one",
    305: "a change doesn't fit the changes before it",
    306: "the file could not be read or written",
    307: "memory was refused",
    308: "the journal has fewer bytes than its header",
    401: "the version of the change is neither 1 nor 2",
    402: "a field of the change is not whole",
    403: "bytes come after the last record of the change",
    404: "the sequence number or the start counter of the change is 0",
    405: "the message or a text of the change isn't UTF-8",
    406: "the dependencies of the change don't rise strictly",
    407: "the change has no record",
    408: "the version of the change has no such record or reference",
    409: "an insert run of the change is empty, or a run of deletes has fewer than two",
    410: "the change is past a limit of bytes, operations, counters, dependencies or message bytes",
    411: "memory was refused",
    412: "the version of the change is 2, and it has no run of deletes",
    501: "the journal has a change of this actor: draw another one",
    502: "the journal can't be written or was moved, replaced or cut: close it, put it back or make room, open it anew",
    503: "the editor has stopped since its journal failed: close it and open the file again",
    504: "there are as many links as there may be",
    505: "the file has a journal or other bytes already",
    509: "memory was refused",
    602: "the other side sent bytes that are no frame, or a message of this side is too long for one",
    603: "the other side has another document",
    604: "the other side speaks another version of the protocol",
    605: "the other side sent a frame out of its turn, or no session is going on",
    608: "memory was refused",
    701: "the other side refused: it has another document",
    702: "the other side refused: it speaks another version of the protocol",
    703: "the other side refused: what it was sent is malformed, or out of its turn",
    704: "the other side refused: more than 1,024 changes would wait there, or it has more than 65,535 heads",
    705: "the other side refused, and said no more",
    801: "another editor or command has the file open",
    802: "the file is not there, or can't be opened, locked or read",
    803: "memory was refused",
}


class OutOfMemory(Refused, MemoryError):
    """Memory was refused, before a layer below was asked (1); memory was refused (109, 205, 307, 411, 509, 608, 803).
    It is a MemoryError too."""


class NoLink(Refused):
    """There is no link with this number (2)."""


class NoChange(Refused):
    """There is no applied change with this number (3)."""


class BadText(Refused):
    """What should be a text isn't UTF-8 (4)."""


class BadLengths(Refused):
    """The lengths of splices don't add up to the bytes of their texts, or bytes end within a hash (5)."""


class OutOfRange(Refused):
    """The text ends before the position, or before the end of what is to be deleted (101)."""


class CounterLimit(Refused):
    """The last counter of the edit would be past 2^48 - 1 (102)."""


class TooManyOps(Refused):
    """The edit has more than 65,536 operations, one for each character that comes or goes (103)."""


class TooManyHeads(Refused):
    """The document has more than 65,535 heads (104); the document has more than 65,535 heads, which no message can name
    (203)."""


class UnknownHead(Refused):
    """A hash that was named as a head is of no applied change (105)."""


class UnknownElement(Refused):
    """The document has no such element (106)."""


class PendingFull(Refused):
    """More than 1,024 changes would wait for others (107, 204)."""


class HashTaken(Refused):
    """Another change has the hash of the new one (108)."""


class OtherDocument(Refused):
    """What came is of another document (110); the message is of another document (206); the other side has another
    document (603); the other side refused: it has another document (701)."""


class TooLong(Refused):
    """The message has more than 65,535 bytes, or the change more than 4,194,304 (111)."""


class Full(Refused):
    """The document has 4,294,967,295 changes (112)."""


class NotKept(Refused):
    """The change was not kept (113); a change of the message was not kept (207)."""


class BadMessage(Refused):
    """The bytes are not laid out as a message (201)."""


class BadChange(Refused):
    """The bytes of a change within the message are no change (202)."""


class BadMagic(Refused):
    """The bytes don't begin as those of such a file do (301)."""


class Truncated(Refused):
    """The saved file is not whole (302)."""


class BadDigest(Refused):
    """The digest at the end of the saved file is not that of the bytes before it (303)."""


class Damaged(Refused):
    """A change is damaged, or bytes come after the last one (304)."""


class Io(Refused, OSError):
    """The file could not be read or written (306); the file is not there, or can't be opened, locked or read (802). It
    is an OSError too."""


class NoHeader(Refused):
    """The journal has fewer bytes than its header (308)."""


class Version(Refused):
    """The version of the change is neither 1 nor 2 (401); the other side speaks another version of the protocol (604);
    the other side refused: it speaks another version of the protocol (702)."""


class Short(Refused):
    """A field of the change is not whole (402)."""


class Trailing(Refused):
    """Bytes come after the last record of the change (403)."""


class ZeroSeqOrStart(Refused):
    """The sequence number or the start counter of the change is 0 (404)."""


class BadUtf8(Refused):
    """The message or a text of the change isn't UTF-8 (405)."""


class DepsOrder(Refused):
    """The dependencies of the change don't rise strictly (406)."""


class NoRecords(Refused):
    """The change has no record (407)."""


class BadTag(Refused):
    """The version of the change has no such record or reference (408)."""


class EmptyRun(Refused):
    """An insert run of the change is empty, or a run of deletes has fewer than two (409)."""


class Limit(Refused):
    """The change is past a limit of bytes, operations, counters, dependencies or message bytes (410)."""


class NoRun(Refused):
    """The version of the change is 2, and it has no run of deletes (412)."""


class ActorInUse(Refused):
    """The journal has a change of this actor: draw another one (501)."""


class JournalFailed(Refused, OSError):
    """The journal can't be written or was moved, replaced or cut: close it, put it back or make room, open it anew
    (502). It is an OSError too."""


class Stopped(Refused):
    """The editor has stopped since its journal failed: close it and open the file again (503)."""


class TooManyLinks(Refused):
    """There are as many links as there may be (504)."""


class JournalNotEmpty(Refused):
    """The file has a journal or other bytes already (505)."""


class Frame(Refused):
    """The other side sent bytes that are no frame, or a message of this side is too long for one (602)."""


class Unexpected(Refused):
    """The other side sent a frame out of its turn, or no session is going on (605)."""


class Malformed(Refused):
    """The other side refused: what it was sent is malformed, or out of its turn (703)."""


class TooMany(Refused):
    """The other side refused: more than 1,024 changes would wait there, or it has more than 65,535 heads (704)."""


class Other(Refused):
    """The other side refused, and said no more (705)."""


class Busy(Refused):
    """Another editor or command has the file open (801)."""


STATUSES: Dict[int, Type[Refused]] = {
    1: OutOfMemory,
    2: NoLink,
    3: NoChange,
    4: BadText,
    5: BadLengths,
    101: OutOfRange,
    102: CounterLimit,
    103: TooManyOps,
    104: TooManyHeads,
    105: UnknownHead,
    106: UnknownElement,
    107: PendingFull,
    108: HashTaken,
    109: OutOfMemory,
    110: OtherDocument,
    111: TooLong,
    112: Full,
    113: NotKept,
    201: BadMessage,
    202: BadChange,
    203: TooManyHeads,
    204: PendingFull,
    205: OutOfMemory,
    206: OtherDocument,
    207: NotKept,
    301: BadMagic,
    302: Truncated,
    303: BadDigest,
    304: Damaged,
    305: Refused,
    306: Io,
    307: OutOfMemory,
    308: NoHeader,
    401: Version,
    402: Short,
    403: Trailing,
    404: ZeroSeqOrStart,
    405: BadUtf8,
    406: DepsOrder,
    407: NoRecords,
    408: BadTag,
    409: EmptyRun,
    410: Limit,
    411: OutOfMemory,
    412: NoRun,
    501: ActorInUse,
    502: JournalFailed,
    503: Stopped,
    504: TooManyLinks,
    505: JournalNotEmpty,
    509: OutOfMemory,
    602: Frame,
    603: OtherDocument,
    604: Version,
    605: Unexpected,
    608: OutOfMemory,
    701: OtherDocument,
    702: Version,
    703: Malformed,
    704: TooMany,
    705: Other,
    801: Busy,
    802: Io,
    803: OutOfMemory,
}

__all__ = [
    "ActorInUse",
    "BadChange",
    "BadDigest",
    "BadLengths",
    "BadMagic",
    "BadMessage",
    "BadTag",
    "BadText",
    "BadUtf8",
    "Busy",
    "CounterLimit",
    "Damaged",
    "DepsOrder",
    "EmptyRun",
    "Frame",
    "Full",
    "HashTaken",
    "Io",
    "JournalFailed",
    "JournalNotEmpty",
    "Limit",
    "Malformed",
    "NoChange",
    "NoHeader",
    "NoLink",
    "NoRecords",
    "NoRun",
    "NotKept",
    "Other",
    "OtherDocument",
    "OutOfMemory",
    "OutOfRange",
    "PendingFull",
    "Refused",
    "STATUSES",
    "Short",
    "Stopped",
    "TooLong",
    "TooMany",
    "TooManyHeads",
    "TooManyLinks",
    "TooManyOps",
    "Trailing",
    "Truncated",
    "Unexpected",
    "UnknownElement",
    "UnknownHead",
    "Version",
    "ZeroSeqOrStart",
]
# end of statuses
