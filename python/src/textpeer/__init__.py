"""textpeer: the engine under a local-first text editor. Peers edit one plain text, offline or not, and hand each
other the changes that the other lacks; all copies with the same changes have the same text.

    from textpeer import SharedEditor

    with SharedEditor.open("notes.journal") as notes:
        notes.edit(0, 0, "Hello world")
        notes.sync("127.0.0.1:7000")
        print(notes.text())

`SharedEditor` edits a journal in a file, the same file that the program ``textpeer`` reads and writes. `Editor` is a
document in memory, with all the same calls. Both exchange changes with others over sockets, pipes or any streams of
bytes, or as changes, messages and saved files for you to carry; they have each earlier text too, and tell what changed
since.

Identifiers, actors, hashes, changes, messages and saved files are ``bytes`` (a ``bytearray`` or a ``memoryview`` is
taken too), texts are ``str``, and positions count the characters of a ``str``. An argument of another type raises
TypeError, and one that can't be meant ValueError. What the engine itself refuses raises a subclass of `Refused` that
is named after the refusal, as `OutOfRange`; for want of memory that is a MemoryError too.

An editor belongs to the process that opened it: in one that was forked from it, as by ``multiprocessing``, its calls
raise `Forked`. It is neither copied nor pickled.
"""
from . import refusals
from ._arguments import Splice
from .changes import Change
from .editor import Cursor, Editor, Link
from .refusals import *  # noqa: F403
from .refusals import Forked
from .sessions import Session
from .shared import SharedEditor

__version__ = "0.1.0"
# The short hash of the commit that this is a release of; it is empty where it is none.
__commit__ = ""

__all__ = ["Change", "Cursor", "Editor", "Forked", "Link", "Session", "SharedEditor", "Splice", "__commit__", "__version__"]
__all__ += refusals.__all__
