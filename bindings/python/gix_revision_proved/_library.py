"""The functions of the C library, by ctypes, and the conversion of what they take and return."""

from __future__ import annotations

import ctypes
import mmap
import operator
import os
import threading
from collections.abc import Callable, Iterable, Sequence
from typing import NoReturn

from ._errors import WANTS, Wants, answered

Id = bytes | bytearray | memoryview | str
Text = bytes | bytearray | memoryview | str
File = bytes | bytearray | memoryview | mmap.mmap


class RawId(ctypes.Structure):
    _fields_ = [("bytes", ctypes.c_uint8 * 20)]


class RawName(ctypes.Structure):
    _fields_ = [("id", RawId), ("text", ctypes.c_char_p), ("text_len", ctypes.c_size_t)]


class RawBytes(ctypes.Structure):
    _fields_ = [("bytes", ctypes.c_char_p), ("bytes_len", ctypes.c_size_t)]


class RawHow(ctypes.Structure):
    _fields_ = [
        ("size", ctypes.c_size_t),
        ("max_candidates", ctypes.c_size_t),
        ("hex_len", ctypes.c_size_t),
        ("first_parent", ctypes.c_bool),
        ("fallback_to_id", ctypes.c_bool),
        ("long_form", ctypes.c_bool),
        ("git_order", ctypes.c_bool),
    ]


class RawSpan(ctypes.Structure):
    _fields_ = [("kind", ctypes.c_uint32), ("first", RawId), ("second", RawId)]


class RawCommit(ctypes.Structure):
    _fields_ = [
        ("time", ctypes.c_int64),
        ("generation", ctypes.c_uint32),
        ("has_generation", ctypes.c_bool),
        ("parents_len", ctypes.c_size_t),
    ]


class RawFault(ctypes.Structure):
    _fields_ = [("number", ctypes.c_uint8), ("start", ctypes.c_size_t), ("length", ctypes.c_size_t)]


Handle, Size = ctypes.c_void_p, ctypes.c_size_t
_Ids, _Count, _Bytes = ctypes.POINTER(RawId), ctypes.POINTER(Size), ctypes.c_char_p
_Span, _Fault, _Depth = ctypes.POINTER(RawSpan), ctypes.POINTER(RawFault), ctypes.POINTER(ctypes.c_uint32)
_Moment = (ctypes.c_int64, ctypes.c_int32)

# The parameters of each function that returns a code.
_PARAMETERS: dict[str, tuple[object, ...]] = {
    "new": (ctypes.c_uint64, ctypes.POINTER(Handle)),
    "open": (_Bytes, Size, ctypes.c_uint64, ctypes.POINTER(Handle)),
    "open_chain": (ctypes.POINTER(RawBytes), Size, ctypes.c_uint64, ctypes.POINTER(Handle)),
    "insert": (Handle, _Ids, _Ids, Size, ctypes.c_int64, ctypes.c_bool, ctypes.c_uint32),
    "insert_object": (Handle, _Ids, _Bytes, Size),
    "commit": (Handle, _Ids, ctypes.POINTER(RawCommit), _Ids, Size),
    "wanted": (Handle, _Ids),
    "merge_bases": (Handle, _Ids, _Ids, Size, _Ids, Size, _Count),
    "octopus": (Handle, _Ids, _Ids, Size, _Ids),
    "is_ancestor": (Handle, _Ids, _Ids),
    "independent": (Handle, _Ids, Size, _Ids, Size, _Count),
    "ahead_behind": (Handle, _Ids, _Ids, _Count, _Count),
    "newest_first": (Handle, _Ids, Size, _Ids, Size, _Count),
    "missing": (Handle, _Ids, Size, _Ids, Size, _Count),
    "missing_all": (Handle, ctypes.POINTER(Handle)),
    "describe": (Handle, _Ids, ctypes.POINTER(RawName), Size, ctypes.POINTER(RawHow), _Bytes, Size, _Count, _Depth),
    "describe_by": (Handle, _Ids, Handle, ctypes.POINTER(RawHow), _Bytes, Size, _Count, _Depth),
    "name": (Handle, _Bytes, Size, _Ids),
    "unname": (Handle, _Bytes, Size),
    "resolve": (Handle, _Bytes, Size, *_Moment, _Span, _Fault),
    "rev_parse": (Handle, _Bytes, Size, *_Moment, _Span, _Fault),
    "list": (Handle, _Span, _Ids, Size, _Ids, Size, _Count),
    "list_all": (Handle, _Span, ctypes.POINTER(Handle)),
    "count": (Handle, _Span, _Count),
}

_NAME = "libgix_revision.so.0.9"


def _path() -> str:
    """Returns the path of the library, or its name if the system has to look for it.

    The library is in the folder of this file in a wheel, and in the one above in the tarball.
    """
    folder = os.path.dirname(os.path.abspath(__file__))
    beside = [f"{it}/{_NAME}" for it in (folder, os.path.dirname(folder)) if os.path.exists(f"{it}/{_NAME}")]
    return os.environ.get("GIX_REVISION_LIBRARY") or (beside[0] if beside else _NAME)


PATH = _path()


def _load() -> ctypes.CDLL:
    library = ctypes.CDLL(PATH)
    for name, types in _PARAMETERS.items():
        function = getattr(library, f"gix_history_{name}")
        function.restype, function.argtypes = ctypes.c_int32, types
    for name in ("history", "names", "ids"):
        free = getattr(library, f"gix_{name}_free")
        free.restype, free.argtypes = None, (Handle,)
    library.gix_names_new.restype = ctypes.c_int32
    library.gix_names_new.argtypes = (ctypes.POINTER(RawName), Size, ctypes.c_uint64, ctypes.POINTER(Handle))
    library.gix_ids_len.restype, library.gix_ids_len.argtypes = Size, (Handle,)
    library.gix_ids_read.restype, library.gix_ids_read.argtypes = Size, (Handle, Size, _Ids, Size)
    library.gix_history_set_partial.restype, library.gix_history_set_partial.argtypes = None, (Handle, ctypes.c_bool)
    library.gix_history_len.restype, library.gix_history_len.argtypes = Size, (Handle,)
    library.gix_history_abbreviate.restype, library.gix_history_abbreviate.argtypes = Size, (Handle, _Ids, Size)
    library.gix_graph_fault.restype, library.gix_graph_fault.argtypes = ctypes.c_uint32, (ctypes.c_char_p, Size)
    library.gix_version.restype, library.gix_version.argtypes = ctypes.c_uint32, ()
    return library


class _Missing:
    """Stands in for a library that was not loaded. `Repository` does not need one."""

    def __init__(self, error: OSError) -> None:
        self._error = error

    def __getattr__(self, name: str) -> NoReturn:
        raise OSError(f"{self._error}; GIX_REVISION_LIBRARY has to be the path of the library") from None


_library: ctypes.CDLL | _Missing
try:
    _library = _load()
except OSError as _error:
    _library = _Missing(_error)


class _Held:
    """Owns something of the library, and lets one call at a time use it.

    Other threads wait. A call from the thread that is in a call, as by a signal handler, is refused.
    """

    __slots__ = ("_at", "_lock", "_is_busy", "_free", "_what")

    def __init__(self, what: str, free: Callable[[ctypes.c_void_p], None]) -> None:
        self._at, self._lock, self._is_busy, self._free, self._what = Handle(), threading.RLock(), False, free, what

    def use(self, call: Callable[[ctypes.c_void_p], int]) -> int:
        """Returns what a call returns that is handed the pointer."""
        with self._lock:
            if self._is_busy:
                raise RuntimeError(f"the {self._what} is in use by this thread")
            try:
                self._is_busy = True
                if not self._at:
                    raise ValueError(f"the {self._what} is closed")
                return call(self._at)
            finally:
                self._is_busy = False

    def __del__(self) -> None:
        # Nothing else refers to it any more, so no call is under way.
        if getattr(self, "_at", None):
            self._free(self._at)


class Owner(_Held):
    """Owns a history of the library."""

    __slots__ = ()

    def __init__(self, make: str, *arguments: object) -> None:
        super().__init__("history", _library.gix_history_free)
        answered(getattr(_library, f"gix_history_{make}")(*arguments, _seed(), ctypes.byref(self._at)))

    def call(self, name: str, *arguments: object) -> int:
        """Calls a function with the history and these arguments, and returns what it returns.

        Raises Wants."""
        function = getattr(_library, f"gix_history_{name}")

        def called(at: ctypes.c_void_p) -> int:
            code: int = function(at, *arguments)
            if code == WANTS:
                wanted = RawId()
                _library.gix_history_wanted(at, wanted)
                raise Wants(hex_of(wanted))
            return code

        return self.use(called)

    def close(self) -> None:
        with self._lock:
            if self._is_busy:
                raise RuntimeError("the history is in use by this thread")
            at, self._at = self._at, Handle()
            if at:
                self._free(at)


class Table(_Held):
    """Owns a table of names of the library."""

    __slots__ = ()

    def __init__(self, names: Iterable[tuple[Id, Text]]) -> None:
        super().__init__("table of names", _library.gix_names_free)
        array, texts = names_of(names)
        answered(_library.gix_names_new(array, len(texts), _seed(), ctypes.byref(self._at)))

    def describe(self, history: Owner, commit: RawId, *rest: object) -> int:
        """Calls the function that describes a commit of a history by these names."""
        return self.use(lambda at: history.call("describe_by", commit, at, *rest))


class Ids:
    """Owns a list of ids of the library."""

    __slots__ = ("_at", "_free")

    def __init__(self, history: Owner, make: str, *arguments: object) -> None:
        self._at, self._free = Handle(), _library.gix_ids_free
        answered(history.call(make, *arguments, ctypes.byref(self._at)))

    def __len__(self) -> int:
        length: int = _library.gix_ids_len(self._at)
        return length

    def read(self, place: int, most: int) -> list[str]:
        """Returns the ids from a place on, at most so many."""
        room = min(most, max(0, len(self) - place))
        out = (RawId * max(1, room))()
        count: int = _library.gix_ids_read(self._at, place, out, room)
        return hexes_of(out, count)

    def __del__(self) -> None:
        if getattr(self, "_at", None):
            self._free(self._at)


def bytes_of(file: File) -> bytes:
    """Returns the bytes of a file, a copy unless they are `bytes` already."""
    return file if isinstance(file, bytes) else bytes(memoryview(file))


def files_of(files: Iterable[File]) -> tuple[ctypes.Array[RawBytes], int]:
    """Returns files as a C array, which keeps their bytes, and their number."""
    if isinstance(files, (str, bytes, bytearray, memoryview, mmap.mmap)):
        raise TypeError("a list of files, not one file")
    given = [RawBytes(data, len(data)) for data in map(bytes_of, files)]
    return (RawBytes * max(1, len(given)))(*given), len(given)


def graph_fault(file: File) -> int:
    """Returns the number of one thing that is wrong with a commit-graph file, from 1 to 20.

    The names GIX_GRAPH_.. in gix_revision.h say what it is. It is 0 if the file is well-formed, so
    that `History.open` does not raise NoGraph.
    """
    data = bytes_of(file)
    found: int = _library.gix_graph_fault(data, len(data))
    return found


def library_version() -> tuple[int, int, int]:
    """Returns the version of the C library that is used, such as (1, 0, 0)."""
    version: int = _library.gix_version()
    return version // 10000, version // 100 % 100, version % 100


def _seed() -> int:
    """Returns a random seed for the hash tables of a history."""
    return int.from_bytes(os.urandom(8), "little")


def number(value: int, bits: int, signed: bool = False) -> int:
    """Returns an integer if a C integer of that many bits holds it. Otherwise raises OverflowError."""
    value = operator.index(value)
    least, end = (-(1 << (bits - 1)), 1 << (bits - 1)) if signed else (0, 1 << bits)
    if not least <= value < end:
        raise OverflowError(f"{value} is not from {least} to {end - 1}")
    return value


def size(value: int) -> int:
    """Returns an integer if a `size_t` holds it. Otherwise raises OverflowError."""
    return number(value, 8 * ctypes.sizeof(Size))


def text_of(text: Text) -> bytes:
    """Returns the bytes of a text. A `str` is encoded as UTF-8, as file names of git are."""
    if isinstance(text, str):
        return text.encode("utf-8", "surrogateescape")
    if isinstance(text, (bytes, bytearray, memoryview)):
        return bytes(text)
    raise TypeError(f"a text is str or bytes, not {type(text).__name__}")


def raw_of(id: Id) -> bytes:
    """Returns the 20 bytes of an id."""
    if isinstance(id, str):
        try:
            raw = bytes.fromhex(id) if len(id) == 40 else b""
        except ValueError:
            raw = b""
    elif isinstance(id, (bytes, bytearray, memoryview)):
        raw = bytes(id)
    else:
        raise TypeError(f"an id is str or bytes, not {type(id).__name__}")
    if len(raw) != 20:
        raise ValueError(f"an id is 20 bytes, or 40 hex digits: {id!r}")
    return raw


def one(id: Id) -> RawId:
    return RawId.from_buffer_copy(raw_of(id))


def many(ids: Iterable[Id]) -> tuple[ctypes.Array[RawId], int]:
    """Returns the ids as a C array, and their number. The array has room for at least one id."""
    if isinstance(ids, (str, bytes, bytearray, memoryview)):
        raise TypeError("a list of ids, not one id")
    raw = b"".join(map(raw_of, ids))
    count = len(raw) // 20
    return (RawId * max(1, count)).from_buffer_copy(raw or bytes(20)), count


def hex_of(id: RawId) -> str:
    return bytes(id.bytes).hex()


def hexes_of(ids: ctypes.Array[RawId], count: int) -> list[str]:
    """Returns the first ids of a C array as hex digits."""
    digits = bytes(memoryview(ids).cast("B")[: 20 * count]).hex()
    return [digits[at : at + 40] for at in range(0, 40 * count, 40)]


def names_of(names: Iterable[tuple[Id, Text]]) -> tuple[ctypes.Array[RawName], Sequence[object]]:
    """Returns names as a C array, and what has to live as long as the array."""
    texts, given = [], []
    for id, text in names:
        texts.append(text_of(text))
        given.append(RawName(one(id), texts[-1], len(texts[-1])))
    return (RawName * max(1, len(given)))(*given), texts
