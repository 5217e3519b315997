"""The library for Python: sessions and whole inputs, by ctypes over a shared object that is linked from liblispm.a.

    library = lispm.Library("./liblispm.so")
    status, output = library.main(["replay"], data)
    with library.session() as session:
        session.line(b"lispm-world 1")
        ..
        print(session.line(b"cons 1 work 0 0").decode())

This module keeps what lispm.h requires of its caller: no pointer is null, output and length overlap nothing, a seat begins zeroed,
is never copied, and is used by one call at a time. So nothing that a Python program does with it can break the machine.
"""
import ctypes
import threading
from typing import Any, Callable, Iterable, List, NamedTuple, Tuple

DONE, REFUSED, NO_SPACE, NO_MEMORY, SWAP_FAILED, USAGE, NO_OBJECT = 0, 2, 4, 5, 6, 7, 8
EMPTY, SMALL, FEED, ENDED = 9, 10, 11, 12

ROOM = 4096          # what is tried first; a longer answer is fetched once more


class Refused(Exception):
    """A line was refused, or the session had ended."""

    def __init__(self, status: int, answer: bytes):
        super().__init__(answer.decode("ascii").rstrip("\n") or f"status {status}")
        self.status = status
        self.answer = answer


class Seat(ctypes.Structure):
    """A place for one session, as the library sees it."""
    _fields_ = [("full", ctypes.c_bool), ("at", ctypes.c_void_p)]


class Answer(NamedTuple):
    """What a call of the library returned: its status, and the bytes."""
    status: int
    output: bytes


class Room:
    """The bytes that the library writes into, and the length that it reports."""

    def __init__(self, size: int = ROOM):
        self.bytes = ctypes.create_string_buffer(size)
        self.needed = ctypes.c_size_t()

    def words(self) -> Tuple["ctypes.Array[ctypes.c_char]", ctypes.c_size_t, "ctypes._CArgObject"]:
        """These as the last three arguments of a call."""
        return self.bytes, ctypes.c_size_t(len(self.bytes)), ctypes.byref(self.needed)

    def grow(self) -> None:
        """Makes room for the answer that was too long."""
        self.bytes = ctypes.create_string_buffer(self.needed.value)

    def answer(self, status: int) -> Answer:
        return Answer(status, ctypes.string_at(self.bytes, self.needed.value))


class Library:
    """The functions of a shared object."""

    def __init__(self, path: str):
        library = ctypes.CDLL(path)
        byte, size, seat = ctypes.c_char_p, ctypes.c_size_t, ctypes.POINTER(Seat)
        output = [ctypes.c_void_p, size, ctypes.POINTER(size)]
        self._open = function(library.lispm_raw_open, [seat])
        self._line = function(library.lispm_raw_line, [seat, byte, size, *output])
        self._again = function(library.lispm_raw_again, [seat, *output])
        self._end = function(library.lispm_raw_end, [seat, *output])
        self._close = function(library.lispm_raw_close, [seat], None)
        self._main = function(library.lispm_raw_main, [byte, size, byte, size, *output])
        self._inside = function(library.lispm_raw_inside, [byte, size, byte, size, *output])
        self._version = function(library.lispm_raw_version, [], ctypes.c_uint32)

    def version(self) -> Tuple[int, int, int]:
        """The version of the library, such as (0, 4, 0)."""
        number = self._version()
        return number // 1_000_000, number // 1000 % 1000, number % 1000

    def main(self, arguments: Iterable[str], data: bytes = b"") -> Answer:
        """What `lispm` does with these arguments and this standard input."""
        return self._whole(self._main, arguments, data)

    def inside(self, arguments: Iterable[str], data: bytes = b"") -> Answer:
        """What `lispm_inside` does."""
        return self._whole(self._inside, arguments, data)

    def _whole(self, call: Callable[..., int], arguments: Iterable[str], data: bytes) -> Answer:
        words = b"".join(word.encode() + b"\0" for word in arguments)
        data, room = bytes(data), Room(max(ROOM, 2 * len(data)))
        while True:
            # A bytes object of length 0 has an address too, so neither pointer is null.
            status = call(words, len(words), data, len(data), *room.words())
            if status != SMALL:
                return room.answer(status)
            room.grow()

    def session(self) -> "Session":
        """A session that is open."""
        return Session(self)


def function(raw: Any, takes: List[Any], gives: Any = ctypes.c_uint8) -> Callable[..., int]:
    """An exported function with its types."""
    raw.argtypes, raw.restype = takes, gives
    return raw


class Session:
    """One run of the machine, answered line by line."""

    def __init__(self, library: Library):
        self._library, self._seat, self._room = library, Seat(), Room()
        self._lock = threading.Lock()
        status = library._open(ctypes.byref(self._seat))
        if status != DONE:
            raise MemoryError("no memory for a session")

    def answer(self, text: bytes) -> Answer:
        """Reads a line, its text without the line feed; the status and what `lispm replay` writes for it."""
        text = bytes(text)
        with self._lock:
            return self._whole(self._library._line(ctypes.byref(self._seat), text, len(text), *self._room.words()))

    def again(self) -> Answer:
        """The latest answer once more."""
        with self._lock:
            return self._whole(self._library._again(ctypes.byref(self._seat), *self._room.words()))

    def end(self) -> Answer:
        """Ends the input."""
        with self._lock:
            return self._whole(self._library._end(ctypes.byref(self._seat), *self._room.words()))

    def line(self, text: bytes) -> bytes:
        """The answer to a line; raises Refused if the status isn't 0."""
        status, output = self.answer(text)
        if status != DONE:
            raise Refused(status, output)
        return output

    def close(self) -> None:
        """Frees the session. A second time does nothing, and each later call has the status EMPTY."""
        with self._lock:
            self._library._close(ctypes.byref(self._seat))

    def _whole(self, status: int) -> Answer:
        """The answer of a call. One that is longer than the room is fetched once more."""
        if status == SMALL:
            self._room.grow()
            status = self._library._again(ctypes.byref(self._seat), *self._room.words())
        return self._room.answer(status)

    def __enter__(self) -> "Session":
        return self

    def __exit__(self, *_: object) -> None:
        self.close()

    def __del__(self) -> None:
        if hasattr(self, "_seat") and self._seat.full:
            self._library._close(ctypes.byref(self._seat))
