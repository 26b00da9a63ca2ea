"""How a session is held over a socket or streams; addresses, and the time that is left."""
from __future__ import annotations

import contextlib
import io
import socket
import time
from typing import Callable, Iterator, Optional, Tuple

from .refusals import Refused
from .sessions import Reader, Session, Writer

# How many bytes are read at once at most.
_PIECE = 1 << 16


def hold(session: Session, receive: Callable[[], bytes], send: Callable[[bytes], None]) -> int:
    """Holds the session to its end by these two functions. The first gives no bytes at the end of its
    stream. How many changes entered. The session is over then, however this ends."""
    try:
        while True:
            due = session.data_to_send()
            if due:
                send(due)
            if session.is_complete:
                return session.entered
            data = receive()
            if not data:
                raise ConnectionError("the other side ended the stream before the session was over")
            try:
                session.receive_data(data)
            except Refused:
                # The refusal is sent to the other side, if it listens.
                with contextlib.suppress(OSError, ValueError):
                    send(session.data_to_send())
                raise
    finally:
        session.end()


@contextlib.contextmanager
def one_timeout() -> Iterator[None]:
    """Raises TimeoutError where a socket's time is over, which was a class of its own before Python 3.10."""
    try:
        yield
    except socket.timeout as error:
        if isinstance(error, TimeoutError):
            raise
        raise TimeoutError(*error.args) from None


def hold_over_socket(session: Session, connection: socket.socket, left: Callable[[], Optional[float]]) -> int:
    """Holds the session over a connected socket; each wait has the time that is left by then."""

    def receive() -> bytes:
        connection.settimeout(left())
        return connection.recv(_PIECE)

    def send(data: bytes) -> None:
        connection.settimeout(left())
        connection.sendall(data)

    with one_timeout():
        return hold(session, receive, send)


def hold_over_streams(session: Session, reader: Reader, writer: Writer) -> int:
    """Holds the session over a stream that is read and one that is written."""
    read = getattr(reader, "read1", reader.read)
    flush = getattr(writer, "flush", None)

    def receive() -> bytes:
        data: Optional[bytes] = read(_PIECE)
        if data is None:
            raise BlockingIOError("the stream that is read doesn't wait for bytes")
        return data

    def send(data: bytes) -> None:
        if isinstance(writer, io.RawIOBase):
            left = memoryview(data)
            while left:
                written = writer.write(left)
                if written is None:
                    raise BlockingIOError("the stream that is written doesn't wait for room")
                left = left[written:]
        else:
            writer.write(data)
        if flush is not None:
            flush()

    return hold(session, receive, send)


def place_of(address: str) -> Tuple[str, int]:
    """The host and the port of an address, as ``127.0.0.1:7000``, ``[::1]:7000`` or ``notes.example:7000``; a
    ValueError for another text."""
    if not isinstance(address, str):
        raise TypeError(f"an address is a str, not {type(address).__name__}")
    host, _, port = address.rpartition(":")
    if host.startswith("[") and host.endswith("]"):
        host = host[1:-1]
    elif ":" in host:
        host = ""
    if not host or not (port.isascii() and port.isdigit()) or not 0 < int(port) < 65536:
        raise ValueError(f"an address is HOST:PORT, with brackets around an IPv6 host, not {address!r}")
    return host, int(port)


def clock(timeout: Optional[float]) -> Callable[[], Optional[float]]:
    """What says how many of the seconds are left, and raises TimeoutError where none are; None where there is no
    end."""
    if timeout is None:
        return lambda: None
    if not timeout > 0:
        raise ValueError(f"a timeout is more than 0 seconds, not {timeout}")
    end = time.monotonic() + timeout

    def left() -> float:
        seconds = end - time.monotonic()
        if seconds <= 0:
            raise TimeoutError("timed out")
        return seconds

    return left
