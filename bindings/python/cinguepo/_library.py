"""The shared library of gixobj_c, gixobj_c_reencode, gixobj_c_fsck and gixobj_c_edit: its structs, its declarations and
its errors."""
import ctypes
import functools
import os
import re
from ctypes import POINTER, Structure, c_char_p, c_int32, c_int64, c_size_t, c_uint8, c_uint32, c_uint64
from typing import Callable

DONE, AT_END, MALFORMED, OUT_OF_MEMORY, UNKNOWN_CODE, BUFFER_TOO_SHORT, BAD_OFFSET = range(7)
UNKNOWN_KIND, INVALID_SIZE, NOT_FOUND, NOT_ENCODABLE, MISMATCH = range(7, 12)
BAD_LINE, INVALID_NAME, IS_DIRECTORY, MALFORMED_TREE, LOSSY_TREE = 12, 14, 15, 16, 17


class Span(Structure):
    """The position of a piece of the input."""

    _fields_ = [("start", c_size_t), ("len", c_size_t)]

    def of(self, data: bytes) -> bytes:
        return data[self.start : self.start + self.len]


class LooseHeader(Structure):
    _fields_ = [("size", c_uint64), ("len", c_size_t), ("kind", c_uint8)]


class TreeEntry(Structure):
    _fields_ = [("mode", c_uint32), ("name", Span), ("id", Span), ("next", c_size_t)]


class Cursor(Structure):
    _fields_ = [("offset", c_size_t), ("state", c_uint8)]


class CommitToken(Structure):
    _fields_ = [("kind", c_uint32), ("name", Span), ("value", Span)]


class TagToken(Structure):
    _fields_ = [("kind", c_uint32), ("has_signature", c_uint32), ("value", Span), ("signature", Span)]


class Actor(Structure):
    _fields_ = [
        ("name", Span), ("email", Span), ("time", Span),
        ("seconds", c_int64), ("offset", c_int32), ("has_time", c_uint32),
    ]


class Message(Structure):
    _fields_ = [("title", Span), ("body", Span), ("has_body", c_uint32)]


class FsckReport(Structure):
    _fields_ = [("messages", c_uint64), ("worst", c_uint32), ("is_accepted", c_uint32)]


class FsckFinding(Structure):
    _fields_ = [("offset", c_size_t), ("message", c_uint32), ("severity", c_uint32)]


class Error(Exception):
    """A call failed."""


class MalformedError(Error):
    """The bytes do not decode."""


class UnknownKindError(MalformedError):
    """A loose header has an unknown kind."""


class InvalidSizeError(MalformedError):
    """A loose header has an invalid size."""


class NotEncodableError(Error):
    """The object decodes, and one of its values can't be encoded."""


class UnknownCodeError(Error, ValueError):
    """The number of a hash function or a kind is unknown."""


class MissingLibraryError(Error, NotImplementedError, OSError):
    """The shared library was built without this static library, which has the call. With a reason, it can't be loaded
    at all."""

    def __init__(self, library: str, reason: str = ""):
        if reason:
            what = f"libcinguepo.so can't be loaded: {reason}; `make -C bindings/python LIBRARIES={library}` builds one"
        else:
            what = f"libcinguepo.so has no {library}: `make -C bindings/python` builds one that has it"
        super().__init__(what)
        self.library = library


class MissingTreeError(Error, LookupError):
    """The trees with these ids, in hex, are missing. `id` is the first."""

    def __init__(self, *ids: str):
        self.ids = tuple(dict.fromkeys(ids))
        super().__init__(f"a missing tree: {', '.join(self.ids)}")
        self.id = self.ids[0]


class LossyTreeError(NotEncodableError):
    """The encoding of the tree with this id, in hex, does not decode to it, as with a mode of 140755."""

    def __init__(self, id: str):
        super().__init__(f"a tree with a mode that can't be encoded: {id}")
        self.id = id


class ScriptError(Error, ValueError):
    """The script fails at the line or the command with this number."""

    def __init__(self, message: str, number: int):
        super().__init__(f"{message} {number}")
        self.number = number


SCRIPT_ERRORS = {
    BAD_LINE: "no command: line",
    INVALID_NAME: "an empty name: command",
    IS_DIRECTORY: "a directory: command",
    MALFORMED_TREE: "a malformed tree: command",
}
_ERRORS = {
    MALFORMED: MalformedError("malformed object"),
    OUT_OF_MEMORY: MemoryError("out of memory"),
    UNKNOWN_CODE: UnknownCodeError("an unknown hash function or kind"),
    BAD_OFFSET: IndexError("an offset after the end"),
    UNKNOWN_KIND: UnknownKindError("a loose header with an unknown kind"),
    INVALID_SIZE: InvalidSizeError("a loose header with an invalid size"),
    NOT_ENCODABLE: NotEncodableError("a value that can't be encoded"),
}


def error_of(status: int) -> BaseException:
    """The exception of a status."""
    known = _ERRORS[status]
    return type(known)(*known.args)


_BYTES, _BUFFER = [c_char_p, c_size_t], [ctypes.c_void_p, c_size_t]
_LEN = POINTER(c_size_t)
FUNCTIONS = {
    "gixobj_id": [c_uint8, c_uint8, *_BYTES, *_BUFFER],
    "gixobj_verify": [c_uint8, c_uint8, *_BYTES, *_BYTES],
    "gixobj_check": [c_uint8, c_uint8, *_BYTES],
    "gixobj_reencode": [c_uint8, c_uint8, *_BYTES, *_BUFFER, _LEN],
    "gixobj_fsck": [c_uint8, c_uint8, *_BYTES, c_uint8, POINTER(FsckReport)],
    "gixobj_fsck_findings": [c_uint8, c_uint8, *_BYTES, c_uint8, POINTER(FsckFinding), c_size_t, _LEN],
    "gixobj_fsck_message_name": [c_uint8, *_BUFFER, _LEN],
    "gixobj_fsck_severity": [c_uint8, c_uint8, POINTER(c_uint32)],
    "gixobj_loose_header": [*_BYTES, POINTER(LooseHeader)],
    "gixobj_tree_entry": [c_uint8, *_BYTES, c_size_t, POINTER(TreeEntry)],
    "gixobj_tree_entries": [c_uint8, *_BYTES, c_size_t, POINTER(TreeEntry), c_size_t, _LEN],
    "gixobj_commit_token": [c_uint8, *_BYTES, POINTER(Cursor), POINTER(CommitToken)],
    "gixobj_tag_token": [c_uint8, *_BYTES, POINTER(Cursor), POINTER(TagToken)],
    "gixobj_commit_header": [c_uint8, *_BYTES, *_BYTES, *_BUFFER, _LEN],
    "gixobj_actor": [*_BYTES, POINTER(Actor)],
    "gixobj_message": [*_BYTES, POINTER(Message)],
    "gixobj_summary": [*_BYTES, *_BUFFER, _LEN],
    "gixobj_trailer": [*_BYTES, POINTER(Cursor), *_BUFFER, _LEN, *_BUFFER, _LEN],
    "gixobj_tag_signature": [*_BYTES, POINTER(Span)],
    "gixobj_commit_signature": [c_uint8, *_BYTES, *_BUFFER, _LEN, *_BUFFER, _LEN],
    "gixobj_edit": [c_uint8, *_BYTES, *_BYTES, *_BYTES, *_BUFFER, _LEN, *_BUFFER, _LEN, POINTER(c_uint64)],
}


# static libraries that may be missing, each with its calls
OPTIONAL = dict(
    gixobj_c_reencode=("gixobj_reencode",),
    gixobj_c_fsck=("gixobj_fsck", "gixobj_fsck_findings", "gixobj_fsck_message_name", "gixobj_fsck_severity"),
    gixobj_c_edit=("gixobj_edit",),
)


def _missing(library: str) -> Callable[..., int]:
    """A call that raises MissingLibraryError."""

    def call(*_: object) -> int:
        raise MissingLibraryError(library)

    return call


@functools.lru_cache(maxsize=None)
def load() -> tuple[dict[str, Callable[..., int]], tuple[str, ...]]:
    """The calls of the shared library, and the static libraries that it has. Raises MissingLibraryError without it."""
    folder = os.path.dirname(os.path.abspath(__file__))
    try:
        shared = ctypes.CDLL(os.environ.get("CINGUEPO_LIB", os.path.join(folder, "libcinguepo.so")))
        missing = [name for name, calls in OPTIONAL.items() if not hasattr(shared, calls[0])]
        calls = {call: _missing(name) for name in missing for call in OPTIONAL[name]}
        calls.update((name, getattr(shared, name)) for name in FUNCTIONS if name not in calls)
    except (AttributeError, OSError) as error:
        raise MissingLibraryError("gixobj_c", str(error)) from error
    for name, call in calls.items():
        call.argtypes, call.restype = FUNCTIONS[name], c_uint32
    return calls, ("gixobj_c", *(name for name in OPTIONAL if name not in missing))


class _Calls:
    """The calls. The first use of one loads the shared library."""

    def __getattr__(self, name: str) -> Callable[..., int]:
        if name not in FUNCTIONS:
            raise AttributeError(name)
        self.__dict__.update(load()[0])
        return self.__dict__[name]


lib = _Calls()


def code(number: int) -> int:
    """The same number of a hash function or a kind. Others than those of 8 bits are rejected: ctypes truncates them."""
    if not isinstance(number, int):
        raise TypeError("a number, and not " + type(number).__name__)
    if not 0 <= number < 256:
        raise error_of(UNKNOWN_CODE)
    return number


def digest(id: str) -> bytes:
    """The bytes of an id in hex. Anything but pairs of hex digits is rejected: bytes.fromhex skips spaces."""
    if not re.fullmatch("(?:[0-9A-Fa-f]{2})*", id):
        raise ValueError(f"an id has pairs of hex digits alone, and not {id!r}")
    return bytes.fromhex(id)


def plain(data: bytes) -> bytes:
    """The same `bytes` object. Others are rejected: the library reads memory that nothing else may write."""
    if type(data) is not bytes:
        raise TypeError("bytes, and not " + type(data).__name__)
    return data
