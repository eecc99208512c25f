"""Proved decoders of git's objects: a module over the static libraries gixobj_c, gixobj_c_reencode, gixobj_c_fsck and
gixobj_c_edit, by ctypes alone.

Input is `bytes`, which the library reads in place. Parts of objects are slices of it. `LIBRARIES` are the names of the
static libraries that are there: `reencode`, `fsck` and `edit` raise MissingLibraryError without theirs. Without the
shared library each call and `LIBRARIES` raise it.

Calls take numbers of hash functions and kinds. UnknownCodeError is raised for an unknown one.
"""
import re
from ctypes import Array, byref, c_size_t, c_uint64, create_string_buffer, string_at
from enum import IntEnum
from typing import Callable, Iterable, Iterator, NamedTuple, Optional

from . import _library as raw
from ._library import Error, InvalidSizeError, LossyTreeError, MalformedError, MissingLibraryError, MissingTreeError
from ._library import NotEncodableError, ScriptError, UnknownCodeError, UnknownKindError
from ._library import code, digest, error_of, lib, load, plain
from ._messages import Finding, Message, Report, Severity, finding_of, report_of

__all__ = [
    "LIBRARIES", "Actor", "Entry", "Error", "Finding", "Hash", "InvalidSizeError", "Kind", "LossyTreeError",
    "MalformedError", "Message", "MissingLibraryError", "MissingTreeError", "NotEncodableError", "Report", "ScriptError",
    "Severity", "UnknownCodeError", "UnknownKindError", "actor", "check", "commit_header", "commit_signature", "edit",
    "entries", "fsck", "fsck_report", "loose_header", "message", "object_id", "reencode", "summary", "tag_signature",
    "tag_tokens", "tokens", "trailers", "unfold", "verify",
]


def __getattr__(name: str) -> tuple[str, ...]:
    """The libraries, which are known when the shared library is loaded."""
    if name != "LIBRARIES":
        raise AttributeError(f"module {__name__} has no attribute {name}")
    return load()[1]


class Hash(IntEnum):
    """A hash function."""

    SHA1 = 1
    SHA256 = 2


class Kind(IntEnum):
    """A kind of objects, with git's number."""

    COMMIT = 1
    TREE = 2
    BLOB = 3
    TAG = 4


class Entry(NamedTuple):
    """An entry of a tree. The mode is the number of its octal digits; for 140000 to 147777 it is 0o40000."""

    mode: int
    name: bytes
    id: bytes


class Actor(NamedTuple):
    """The actor of a line. The time is None if its bytes are malformed: seconds, and the offset in seconds."""

    name: bytes
    email: bytes
    time: Optional[tuple[int, int]]


TOKENS = ("", "tree", "parent", "author", "committer", "encoding", "header", "message")


def object_id(kind: int, content: bytes, hash: int = Hash.SHA1) -> str:
    """The id of an object in hex, as git hash-object prints it."""
    buffer = create_string_buffer(32)
    status = lib.gixobj_id(code(hash), code(kind), plain(content), len(content), buffer, len(buffer))
    if status:
        raise error_of(status)
    return buffer.raw[: 20 if hash == Hash.SHA1 else 32].hex()


def verify(kind: int, content: bytes, id: str, hash: int = Hash.SHA1) -> bool:
    """Whether this is the id of the object, in hex. Raises ValueError if it has anything but pairs of hex digits."""
    wanted = digest(id)
    status = lib.gixobj_verify(code(hash), code(kind), plain(content), len(content), wanted, len(wanted))
    if status not in (raw.DONE, raw.MISMATCH):
        raise error_of(status)
    return status == raw.DONE


def check(kind: int, data: bytes, hash: int = Hash.SHA1) -> bool:
    """Whether the bytes are the encoding of an object of this kind."""
    status = lib.gixobj_check(code(hash), code(kind), plain(data), len(data))
    if status not in (raw.DONE, raw.MALFORMED):
        raise error_of(status)
    return status == raw.DONE


def fsck(kind: int, data: bytes, strict: bool = False, hash: int = Hash.SHA1) -> list[Finding]:
    """Git's findings about an object, in the order in which `git fsck` reports them, or with strict `git fsck --strict`.
    There are none about a blob. The parser of git runs before its fsck, and rejects some malformed commits and tags
    without a message. Needs gixobj_c_fsck."""
    hash, kind, count, size = code(hash), code(kind), c_size_t(0), 4
    while True:
        out = (raw.FsckFinding * size)()
        status = lib.gixobj_fsck_findings(hash, kind, plain(data), len(data), bool(strict), out, size, byref(count))
        if status == raw.BUFFER_TOO_SHORT:
            size = count.value
        elif status:
            raise error_of(status)
        else:
            return [finding_of(it) for it in out[: count.value]]


def fsck_report(kind: int, data: bytes, strict: bool = False, hash: int = Hash.SHA1) -> Report:
    """The messages of `fsck`, and whether git accepts the object. Needs gixobj_c_fsck."""
    out = raw.FsckReport()
    status = lib.gixobj_fsck(code(hash), code(kind), plain(data), len(data), bool(strict), byref(out))
    if status:
        raise error_of(status)
    return report_of(out)


def loose_header(data: bytes) -> tuple[Kind, int, int]:
    """The kind, the size and the length of the loose header at the beginning of the bytes."""
    out = raw.LooseHeader()
    status = lib.gixobj_loose_header(plain(data), len(data), byref(out))
    if status:
        raise error_of(status)
    return Kind(out.kind), out.size, out.len


def entries(tree: bytes, hash: int = Hash.SHA1) -> Iterator[Entry]:
    """The entries of a tree. Raises MalformedError after the last one, if the bytes after it do not decode."""
    out, count, offset, length = (raw.TreeEntry * 128)(), c_size_t(0), 0, len(plain(tree))
    hash = code(hash)
    while True:
        status = lib.gixobj_tree_entries(hash, tree, length, offset, out, len(out), byref(count))
        if status == raw.UNKNOWN_CODE:
            raise error_of(status)
        for entry in out[: count.value]:
            yield Entry(entry.mode, entry.name.of(tree), entry.id.of(tree))
        if status == raw.AT_END:
            return
        if status:
            raise error_of(status)
        offset = out[count.value - 1].next


def unfold(lines: bytes) -> bytes:
    """The value of a header with these lines: one without its newline, or several with their newlines."""
    return lines[:-1] if lines.count(b"\n") == 1 else lines.replace(b"\n ", b"\n")


def tokens(commit: bytes, hash: int = Hash.SHA1) -> Iterator[tuple]:
    """The name of each token of a commit, and its value; of an extra header ("header", its name, its value)."""
    out, cursor, length = raw.CommitToken(), raw.Cursor(), len(plain(commit))
    hash = code(hash)
    while True:
        status = lib.gixobj_commit_token(hash, commit, length, byref(cursor), byref(out))
        if status == raw.AT_END:
            return
        if status:
            raise error_of(status)
        value = out.value.of(commit)
        if out.kind == 6:
            yield "header", out.name.of(commit), unfold(value)
        else:
            yield TOKENS[out.kind], value


TAG_TOKENS = ("", "object", "type", "tag", "tagger", "tagger", "message")


def tag_tokens(tag: bytes, hash: int = Hash.SHA1) -> Iterator[tuple[str, Optional[bytes]]]:
    """The name of each token of a tag, and its value; that of an absent tagger is None. A signature comes last."""
    out, cursor, length = raw.TagToken(), raw.Cursor(), len(plain(tag))
    hash = code(hash)
    while True:
        status = lib.gixobj_tag_token(hash, tag, length, byref(cursor), byref(out))
        if status == raw.AT_END:
            return
        if status:
            raise error_of(status)
        yield TAG_TOKENS[out.kind], None if out.kind == 5 else out.value.of(tag)
        if out.has_signature:
            yield "signature", out.signature.of(tag)


def actor(line: bytes) -> Actor:
    """The actor of a line, as of an author, a committer or a tagger."""
    out = raw.Actor()
    status = lib.gixobj_actor(plain(line), len(line), byref(out))
    if status:
        raise error_of(status)
    time = (out.seconds, out.offset) if out.has_time else None
    return Actor(out.name.of(line), out.email.of(line), time)


def message(data: bytes) -> tuple[bytes, Optional[bytes]]:
    """The title and the body of a message. Without a body it is None."""
    out = raw.Message()
    lib.gixobj_message(plain(data), len(data), byref(out))
    return out.title.of(data), out.body.of(data) if out.has_body else None


def _with_buffers(call: Callable[..., int], sizes: list[int]) -> Optional[list[bytes]]:
    """Repeats a call until its buffers are long enough. Returns None if the call finds nothing."""
    while True:
        buffers: list[Array] = [create_string_buffer(max(size, 1)) for size in sizes]
        lens = [c_size_t(0) for _ in sizes]
        arguments = [it for parts in zip(buffers, sizes, map(byref, lens)) for it in parts]
        status = call(*arguments)
        if status == raw.BUFFER_TOO_SHORT:
            sizes = [max(size, len.value) for size, len in zip(sizes, lens)]
        elif status == raw.NOT_FOUND:
            return None
        elif status:
            raise error_of(status)
        else:
            return [buffer.raw[: len.value] for buffer, len in zip(buffers, lens)]


def reencode(kind: int, data: bytes, hash: int = Hash.SHA1) -> bytes:
    """The encoding that the library gives to the decoded object. Needs gixobj_c_reencode."""
    hash, kind = code(hash), code(kind)
    found = _with_buffers(lambda *out: lib.gixobj_reencode(hash, kind, plain(data), len(data), *out), [len(data)])
    assert found
    return found[0]


def summary(data: bytes) -> bytes:
    """The title of a message on one line, without white space at its beginning and end. `%s` of git log keeps a space at
    the beginning, skips empty lines there, and ends before a line of white space."""
    found = _with_buffers(lambda *out: lib.gixobj_summary(plain(data), len(data), *out), [256])
    assert found
    return found[0]


def trailers(data: bytes) -> Iterator[tuple[bytes, bytes]]:
    """The token and the value of each trailer of a message."""
    cursor, token_len, value_len = raw.Cursor(), c_size_t(0), c_size_t(0)
    sizes, call, before = (64, 256), lib.gixobj_trailer, (plain(data), len(data), byref(cursor))
    while True:
        token, value = map(create_string_buffer, sizes)
        arguments = (*before, token, sizes[0], byref(token_len), value, sizes[1], byref(value_len))
        while not (status := call(*arguments)):
            yield token[: token_len.value], value[: value_len.value]
        if status == raw.AT_END:
            return
        if status != raw.BUFFER_TOO_SHORT:
            raise error_of(status)
        sizes = max(sizes[0], token_len.value), max(sizes[1], value_len.value)


def commit_header(commit: bytes, name: bytes, hash: int = Hash.SHA1) -> Optional[bytes]:
    """The value of the first extra header of this name in a commit, or None if all lines decode and none is such a
    header. The bytes may then be no commit: the first lines of one, or no bytes at all. `check` decodes all."""
    hash = code(hash)
    call = lambda *out: lib.gixobj_commit_header(hash, plain(commit), len(commit), plain(name), len(name), *out)  # noqa: E731
    found = _with_buffers(call, [1024])
    return found[0] if found else None


def tag_signature(tag: bytes) -> Optional[tuple[bytes, bytes]]:
    """The signature of a tag, and the bytes that it signs, or None."""
    out = raw.Span()
    if lib.gixobj_tag_signature(plain(tag), len(tag), byref(out)):
        return None
    return out.of(tag), tag[: out.start]


def commit_signature(commit: bytes, hash: int = Hash.SHA1) -> Optional[tuple[bytes, bytes]]:
    """The signature of a commit, and the bytes that it signs, or None. The bytes may be no commit, as for
    commit_header."""
    hash = code(hash)
    call = lambda *out: lib.gixobj_commit_signature(hash, plain(commit), len(commit), *out)  # noqa: E731
    found = _with_buffers(call, [1024, len(commit)])
    return (found[0], found[1]) if found else None


def frames(trees: Iterable[bytes]) -> bytes:
    """Trees as loose objects without compression, one after another."""
    return b"".join(b"tree %d\0" % len(tree) + tree for tree in trees)


_FRAME = re.compile(rb"tree (0|[1-9][0-9]*)\0")


def trees_of(data: bytes) -> Iterator[bytes]:
    """The trees in frames."""
    at = 0
    while at < len(data):
        header = _FRAME.match(data, at)
        if header is None or header.end() + int(header[1]) > len(data):
            raise error_of(raw.MALFORMED)
        at = header.end() + int(header[1])
        yield data[header.end() : at]


def _found(missing: list[str], find: Optional[Callable[[str], bytes]], hash: int) -> bytes:
    """The frames of missing trees. Raises MissingTreeError for those that are not found."""
    if find is None:
        raise MissingTreeError(*missing)
    found = {id: find(id) for id in dict.fromkeys(missing)}
    wrong = [id for id, tree in found.items() if object_id(Kind.TREE, tree, hash) != id]
    if wrong:
        raise MissingTreeError(*wrong)
    return frames(found.values())


def edit(
    root: str,
    script: bytes,
    trees: Iterable[bytes] = (),
    find: Optional[Callable[[str], bytes]] = None,
    hash: int = Hash.SHA1,
) -> tuple[str, list[bytes]]:
    """Runs a script on the root with this id in hex, then writes the root. Returns its id, and the new trees, in the
    order in which the writes emit them, the root last. Needs gixobj_c_edit.

    Trees that `trees` lacks are looked up by `find`, each once; without it, MissingTreeError is raised. The lines of the
    script are `upsert KIND ID PATH`, `remove PATH`, `leaf PATH`, `write`, `root` and `at PREFIX LINE`, as `gixobj help`
    describes them."""
    hash, given, old, count = code(hash), frames(trees), digest(root), plain(script).count(b"\n")
    out_len, id_len, number, id = c_size_t(0), c_size_t(0), c_uint64(0), create_string_buffer(32 * (count + 2))
    size = 4096
    while True:
        out = create_string_buffer(max(size, len(given) + len(script)))
        arguments = [given, len(given), old, len(old), script, len(script)]
        buffers = [out, len(out), byref(out_len), id, len(id), byref(id_len), byref(number)]
        status = lib.gixobj_edit(hash, *arguments, *buffers)
        if status == raw.DONE:
            return string_at(id, id_len.value).hex(), list(trees_of(string_at(out, out_len.value)))
        if status == raw.BUFFER_TOO_SHORT:
            size = out_len.value
        elif status == raw.NOT_FOUND:
            ids, step = string_at(id, id_len.value), len(old)
            given += _found([ids[at : at + step].hex() for at in range(0, len(ids), step)], find, hash)
        elif status == raw.LOSSY_TREE:
            raise LossyTreeError(string_at(id, id_len.value).hex())
        elif status in raw.SCRIPT_ERRORS:
            raise ScriptError(raw.SCRIPT_ERRORS[status], number.value)
        else:
            raise error_of(status)
