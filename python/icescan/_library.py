"""The calls of the shared library, with the types that `include/icescan.h` gives them.

ctypes lets the interpreter's lock go during a call, so that calls of several threads run side by side.
"""
from __future__ import annotations

import ctypes
import ctypes.util
import functools
import json
import os
from ctypes import POINTER, Structure, byref, c_char_p, c_int32, c_int64, c_size_t, c_uint32, c_uint64, c_void_p
from typing import Any, Dict, List, Optional, Tuple, Union

from ._errors import BY_STATUS, Error, LibraryNotFound


class Handle(Structure):
    """What the library made for a caller: a scan, a state, a plan, a commit, an explanation, a text, or the line of a
    fault."""

    _fields_ = [("held", c_void_p)]


class Bytes(Structure):
    """Bytes that are lent."""

    _fields_ = [("at", c_void_p), ("len", c_size_t)]

    def read(self) -> bytes:
        """A copy of them."""
        return ctypes.string_at(self.at, self.len) if self.len else b""

    def text(self) -> str:
        """The same as text."""
        return self.read().decode("utf-8", "surrogateescape")


class Ids(Structure):
    """Ids of columns that are lent."""

    _fields_ = [("at", POINTER(c_int32)), ("len", c_size_t)]

    def read(self) -> Tuple[int, ...]:
        """A copy of them."""
        return tuple(self.at[: self.len]) if self.len else ()


class File(Structure):
    """A data file or a delete file of a plan."""

    _fields_ = [
        ("path", Bytes),
        ("equality_ids", Ids),
        ("sequence_number", c_uint64),
        ("record_count", c_int64),
        ("file_size", c_int64),
        ("positions", c_size_t),
        ("equalities", c_size_t),
        ("spec_id", c_int32),
        ("format", c_uint32),
        ("number", c_size_t),
        ("values", c_size_t),
        ("file_sequence_number", c_uint64),
    ]


class Type(Structure):
    """The type of a partition value."""

    _fields_ = [("number", c_uint32), ("width", c_uint32), ("scale", c_uint32)]

    def text(self) -> Optional[str]:
        """The type as the table's metadata writes it; None where it is not known."""
        name = TYPES[self.number]
        if name == "fixed":
            return f"fixed[{self.width}]"
        return f"decimal({self.width},{self.scale})" if name == "decimal" else name


class Value(Structure):
    """A partition value."""

    _fields_ = [("bytes", Bytes), ("whole", c_int64), ("kind", c_uint32), ("type", Type)]

    def read(self) -> Union[None, bool, int, str, bytes]:
        """A copy of it."""
        return (
            lambda: None,
            lambda: self.whole != 0,
            lambda: self.whole,
            self.bytes.text,
            self.bytes.read,
        )[self.kind]()


class Reason(Structure):
    """The letter and the number of a refusal."""

    _fields_ = [("letter", c_uint32), ("number", c_uint32)]

    def text(self) -> str:
        """Both as one, as F2; "" where there is none."""
        return f"{chr(self.letter)}{self.number}" if self.letter else ""


# The version of the library that this package is made for.
VERSION = 100
# The names of formats by their numbers, and the number that stands for none.
FORMATS = (None, "avro", "orc", "parquet")
NO_NUMBER = 2**64 - 1
# The names of types by their numbers.
TYPES = (
    *(None, "boolean", "int", "long", "float", "double", "date", "time", "timestamp", "timestamptz", "string"),
    *("uuid", "fixed", "binary", "decimal"),
)
# The statuses after which a handle holds the line of a fault.
WITH_LINE = (1, 2, 3, 5)
GIVEN = (c_char_p, c_size_t)
CALLS = {
    "scan_new": (*GIVEN, *GIVEN, *GIVEN),
    "scan_new_at": (*GIVEN, c_int64, *GIVEN),
    "relax_new": (*GIVEN, *GIVEN, *GIVEN),
    "relax_new_at": (*GIVEN, c_int64, *GIVEN),
    "relax_filter": (POINTER(Bytes),),
    "relax_count": (POINTER(c_size_t),),
    "relax_unasked": (c_size_t, POINTER(Bytes)),
    "scan_list": (POINTER(Bytes),),
    "scan_start": GIVEN,
    "scan_count": (POINTER(c_size_t),),
    "scan_wanted": (c_size_t, POINTER(Bytes)),
    "state_new": (POINTER(Handle),),
    "state_take": (c_size_t, *GIVEN),
    "state_merge": (POINTER(Handle),),
    "state_absorb": (POINTER(Handle),),
    "finish": (),
    "plan_count": (POINTER(c_size_t),),
    "plan_file": (c_size_t, POINTER(File), c_size_t),
    "plan_position": (c_size_t, c_size_t, POINTER(File), c_size_t),
    "plan_equality": (c_size_t, c_size_t, POINTER(File), c_size_t),
    "plan_value": (c_size_t, c_size_t, POINTER(Value), c_size_t),
    "plan_deletes": (POINTER(c_size_t),),
    "plan_delete": (c_size_t, POINTER(File), c_size_t),
    "plan_delete_value": (c_size_t, c_size_t, POINTER(Value), c_size_t),
    "plan_json": (POINTER(Handle),),
    "columns_new": (*GIVEN, *GIVEN),
    "columns_new_at": (*GIVEN, c_int64),
    "audit_new": (*GIVEN, *GIVEN),
    "audit_new_at": (*GIVEN, c_int64),
    "audit_take": GIVEN,
    "commit_new": (*GIVEN, *GIVEN, c_int64, c_uint64, c_uint64, c_int64),
    "commit_wanted": (POINTER(Bytes),),
    "commit_take": GIVEN,
    "commit_count": (POINTER(c_size_t),),
    "commit_file": (c_size_t, POINTER(Bytes), POINTER(Bytes)),
    "commit_metadata": (POINTER(Bytes),),
    "explanation_new": (*GIVEN, *GIVEN, *GIVEN),
    "explanation_new_at": (*GIVEN, c_int64, *GIVEN),
    "explanation_wanted": (POINTER(Bytes),),
    "explanation_take": GIVEN,
    "text": (POINTER(Bytes),),
    "fault": (POINTER(Bytes),),
    "reason": (POINTER(Reason),),
    "hint": (POINTER(Bytes),),
}


def place() -> str:
    """Where the shared library is: as ICESCAN_LIBRARY says, else beside this file, else where the system looks."""
    beside = os.path.join(os.path.dirname(os.path.abspath(__file__)), "libicescan.so")
    found = os.environ.get("ICESCAN_LIBRARY")
    if not found:
        found = beside if os.path.exists(beside) else ctypes.util.find_library("icescan")
    if not found:
        raise LibraryNotFound("libicescan.so is not found: tools/build_c makes it, ICESCAN_LIBRARY says where it is")
    return found


@functools.lru_cache(maxsize=None)
def loaded(path: str) -> ctypes.CDLL:
    """The shared library at a path, with the types of its calls."""
    try:
        library = ctypes.CDLL(path)
        for name, words in CALLS.items():
            call = getattr(library, "icescan_" + name)
            call.argtypes, call.restype = (POINTER(Handle), *words), c_uint32
        library.icescan_free.argtypes, library.icescan_free.restype = (POINTER(Handle),), None
        library.icescan_version.argtypes, library.icescan_version.restype = (), c_uint32
    except (OSError, AttributeError) as error:
        raise LibraryNotFound(f"{path} can't be used: {error}") from error
    if library.icescan_version() != VERSION:
        raise LibraryNotFound(f"{path} is of version {library.icescan_version()}, and this package of {VERSION}")
    return library


class Held:
    """A handle, for one thread at a time. Leaving a `with` lets go what it holds."""

    def __init__(self, library: ctypes.CDLL) -> None:
        self.library, self.handle = library, Handle()

    def __enter__(self) -> "Held":
        return self

    def __exit__(self, *raised: Any) -> None:
        self.free()

    def free(self) -> None:
        """Lets go what it holds."""
        self.library.icescan_free(byref(self.handle))

    def call(self, name: str, *words: Any) -> None:
        """Calls the function of this name on the handle; a refusal is raised."""
        status = getattr(self.library, "icescan_" + name)(byref(self.handle), *words)
        if status:
            raise BY_STATUS.get(status, Error)(*(self.fault() if status in WITH_LINE else ()))

    def fault(self) -> Tuple[str, str, str]:
        """The line of the fault that it holds, as an exception tells it, the refusal's number, and its hint; "" where
        it has none."""
        line, reason, hint = Bytes(), Reason(), Bytes()
        if self.library.icescan_fault(byref(self.handle), byref(line)):
            return "", "", ""
        self.library.icescan_reason(byref(self.handle), byref(reason))
        self.library.icescan_hint(byref(self.handle), byref(hint))
        text = line.text().rstrip("\n")
        return text[len("icescan: "):] if text.startswith("icescan: ") else text, reason.text(), hint.text()

    def count(self, name: str) -> int:
        """The count that the function of this name tells."""
        count = c_size_t()
        self.call(name, byref(count))
        return count.value

    def text(self, name: str, *words: Any) -> str:
        """The path or the text that the function of this name lends."""
        text = Bytes()
        self.call(name, *words, byref(text))
        return text.text()


def told(to: Structure) -> Tuple[Any, int]:
    """Where a call writes what it tells, and how much room is there."""
    return byref(to), ctypes.sizeof(to)


def given(data: bytes) -> Tuple[bytes, int]:
    """Bytes as arguments: where they are, and how many."""
    return data, len(data)


def objects_of(text: str) -> List[Dict[str, Any]]:
    """The objects of lines of JSON. A line feed alone ends a line: a path or a name may have what `splitlines` takes for
    an end."""
    return [json.loads(line) for line in text.split("\n") if line]
