"""The audit of a repository: the id, the encoding, the new encoding and the messages of each object, next to git fsck.

New encodings are compared if the library has gixobj_c_reencode, and messages reported if it has gixobj_c_fsck.
"""
import collections
import subprocess
import sys
import time
from typing import Iterable, Optional

from . import Finding, Hash, Kind, MalformedError, MissingLibraryError, NotEncodableError
from . import check, entries, fsck, fsck_report, reencode, tokens, verify
from ._git import Object, Repository
from ._library import load

ENCODER, FSCK = "gixobj_c_reencode", "gixobj_c_fsck"
KINDS = {"commit": Kind.COMMIT, "tree": Kind.TREE, "blob": Kind.BLOB, "tag": Kind.TAG}


def is_valid_by_parts(kind: Kind, data: bytes, hash: Hash) -> bool:
    """Whether the tokens of a commit end with a message, or all entries of a tree decode."""
    last = ""
    try:
        for it in tokens(data, hash) if kind == Kind.COMMIT else entries(data, hash):
            last = it[0]
    except MalformedError:
        return False
    return kind == Kind.TREE or last == "message"


def faults(oid: str, kind: Kind, data: bytes, hash: Hash) -> list[str]:
    """The faults of an object: none if it has its id, decodes, and re-encodes identically, where that is compared."""
    found = [] if verify(kind, data, oid, hash) else ["another id"]
    is_valid = check(kind, data, hash)
    if kind in (Kind.COMMIT, Kind.TREE) and is_valid_by_parts(kind, data, hash) != is_valid:
        found.append("calls disagree")
    if not is_valid:
        return found + ["malformed"]
    try:
        if ENCODER in load()[1] and reencode(kind, data, hash) != data:
            found.append("re-encodes differently")
    except NotEncodableError:
        found.append("not encodable")
    return found


def faults_of(it: Object, hash: Hash) -> list[str]:
    """The faults of what git read."""
    if it.problem:
        return [f"unreadable: {it.problem}"]
    return faults(it.id, KINDS[it.kind], it.content, hash) if it.kind in KINDS else ["unknown kind"]


# findings about an object, and whether git accepts it
Answer = tuple[list[Finding], bool]


def findings_of(it: Object, strict: bool, hash: Hash) -> Optional[Answer]:
    """Git's findings about what git read, and whether git accepts it, or None without the library or the content."""
    if FSCK not in load()[1] or it.problem or it.kind not in KINDS:
        return None
    arguments = KINDS[it.kind], it.content, strict, hash
    report = fsck_report(*arguments)
    return fsck(*arguments) if report.messages else [], report.accepted


class Report:
    """The counts of an audit. It prints each object with a fault, next to what git fsck reports of it, and its messages
    as git fsck does."""

    def __init__(self, reports: dict[str, set[str]]):
        self.reports = reports
        self.kinds: collections.Counter[str] = collections.Counter()
        self.lines: collections.Counter[str] = collections.Counter()
        self.size = self.faulty = self.rejected = 0
        self.shown = time.monotonic()

    def add(self, it: Object, found: Iterable[str], answer: Optional[Answer]) -> None:
        self.kinds[it.kind or "unreadable"] += 1
        self.size += len(it.content)
        self.add_faults(it.kind, it.id, found)
        if answer:
            self.add_findings(it, *answer)
        if sys.stderr.isatty() and time.monotonic() - self.shown > 1:
            self.shown = time.monotonic()
            print(f"\r{sum(self.kinds.values())} objects", end="\r", file=sys.stderr)

    def add_faults(self, kind: str, oid: str, found: Iterable[str]) -> None:
        if what := ", ".join(found):
            self.faulty += 1
            fsck = ", ".join(sorted(self.reports.get(oid, ()))) or "fine"
            print(f"{kind or 'object':6} {oid} here: {what}; git fsck: {fsck}")


    def add_findings(self, it: Object, findings: list[Finding], accepted: bool) -> None:
        self.rejected += not accepted
        for finding in findings:
            self.lines[str(finding.severity)] += 1
            print(f"{finding.severity} in {it.kind} {it.id}: {finding.message}")


def hash_of(folder: str) -> Hash:
    """The hash function of a repository. Ends the program if git finds none."""
    command = ["git", "-C", folder, "rev-parse", "--show-object-format"]
    done = subprocess.run(command, capture_output=True, check=False)
    if done.returncode:
        sys.exit(f"cinguepo: {done.stderr.decode(errors='replace').strip()}")
    return Hash.SHA256 if done.stdout.strip() == b"sha256" else Hash.SHA1


def notes(report: Report) -> str:
    """The numbers of messages, and what the audit leaves out without a library."""
    libraries = load()[1]
    found = f"; fsck: {report.lines['error']} error, {report.lines['warning']} warning" if FSCK in libraries else ""
    absent = {ENCODER: "encodings weren't compared", FSCK: "no fsck"}
    return found + "".join(f"; {what}: {MissingLibraryError(it)}" for it, what in absent.items() if it not in libraries)


def audit(folder: str, strict: bool = False) -> int:
    """Prints each object with a fault and each message of fsck, then each failure of git, then a line of counts, which
    also says what wasn't checked for want of a library. The status is 0 if git lists and reads all objects, none has a
    fault, and git accepts each; otherwise it is 1. A strict check makes errors of warnings. Without gixobj_c_fsck it
    raises MissingLibraryError."""
    if strict and FSCK not in load()[1]:
        raise MissingLibraryError(FSCK)
    hash, repository = hash_of(folder), Repository(folder)
    report, ids = Report(repository.reports(strict)), repository.ids()
    start = time.monotonic()
    for it in repository.objects(ids):
        report.add(it, faults_of(it, hash), findings_of(it, strict, hash))
    seconds = time.monotonic() - start
    missing = {oid for oid, found in report.reports.items() if "missing" in found}.difference(ids)
    for oid in sorted(missing):
        report.add_faults("", oid, ["missing"])
    for message in repository.failures:
        print(f"git: {message}")
    read = sum(report.kinds.values()) - report.kinds["unreadable"]
    names = ", ".join(f"{count} {name}" for name, count in report.kinds.items() if count)
    print(
        f"{folder}: {read} of {len(ids) + len(missing)} objects read: {names or 'none'}, {report.faulty} faulty; "
        f"{report.size / 1e6:.1f} MB in {seconds:.2f} s{notes(report)}"
    )
    return 1 if report.faulty or report.rejected or repository.failures or read != len(ids) else 0
