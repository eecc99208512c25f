"""What git lists, reads and reports of a repository's objects, and how it failed."""
import collections
import os
import re
import subprocess
import tempfile
from typing import BinaryIO, Iterator, NamedTuple, Optional

# the objects of one run of git; after so many in sequence that end it, it isn't started again
BLOCK, MAX_UNREADABLE = 10000, 1000
# git's messages are compared, so none is translated
ENVIRONMENT = {**os.environ, "LC_ALL": "C"}


class Object(NamedTuple):
    """An object, with its id in hex. Of an unreadable one `problem` is what git says."""

    id: str
    kind: str = ""
    content: bytes = b""
    problem: str = ""


def next_object(stream: BinaryIO, oid: str) -> Optional[Object]:
    """The next object in the output of git cat-file, or None if it is incomplete or another one than this."""
    line = stream.readline()
    first, *parts = line.decode(errors="replace").split() or [""]
    if first != oid or not line.endswith(b"\n"):
        return None
    if len(parts) != 2 or not parts[1].isdigit():
        return Object(oid, problem=" ".join(parts))
    content = stream.read(int(parts[1]) + 1)
    return Object(oid, parts[0], content[:-1]) if len(content) == int(parts[1]) + 1 else None


class Repository:
    """A repository. `failures` has what its runs of git said about a failure: each message once. `said` has what the
    last run said."""

    def __init__(self, folder: str):
        self.folder, self.said = folder, ""
        self.failures: dict[str, None] = {}

    def command(self, *words: str) -> list[str]:
        return ["git", "-C", self.folder, "--no-replace-objects", *words]

    def keep_failure(self, word: str, status: int, errors: bytes) -> None:
        """Keeps the messages of a run of git that failed, or that printed an error."""
        lines = [it for it in errors.decode(errors="replace").splitlines() if it.startswith(("error:", "fatal:"))]
        if status:
            how = f"was killed by signal {-status}" if status < 0 else f"ended with status {status}"
            lines.append(f"{word} {how}")
        self.failures.update(dict.fromkeys(lines))
        self.said = "; ".join(lines)

    def ids(self) -> list[str]:
        """The ids of all objects. Git opens no object for them, so it lists also those that it can't read."""
        command = self.command("cat-file", "--batch-all-objects", "--batch-check=%(objectname)")
        done = subprocess.run(command, capture_output=True, check=False, env=ENVIRONMENT)
        self.keep_failure("cat-file", done.returncode, done.stderr)
        return done.stdout.decode().split()

    def objects(self, ids: list[str]) -> Iterator[Object]:
        """These objects. If git ends at one, that is read alone, and then those after it."""
        done = unreadable = 0
        while done < len(ids) and unreadable < MAX_UNREADABLE:
            end = min(done + BLOCK, len(ids))
            for it in self.read(ids[done:end]):
                yield it
                done, unreadable = done + 1, 0
            if done < end:
                found = self.read_alone(ids[done])
                yield found
                done, unreadable = done + 1, unreadable + 1 if found.problem else 0
        for oid in ids[done:]:
            yield Object(oid, problem="not read")

    def read_alone(self, oid: str) -> Object:
        """The object, by a run of git for it alone."""
        found = list(self.read([oid]))
        return found[0] if found else Object(oid, problem=self.said or "not read")

    def read(self, ids: list[str]) -> Iterator[Object]:
        """These objects, by one run of git, up to the one at which it ends."""
        command = self.command("cat-file", "--batch", "--buffer")
        with tempfile.TemporaryFile() as names, tempfile.TemporaryFile() as errors:
            names.write("".join(f"{it}\n" for it in ids).encode())
            names.seek(0)
            with subprocess.Popen(
                command, stdin=names, stdout=subprocess.PIPE, stderr=errors, env=ENVIRONMENT
            ) as run:
                assert run.stdout
                for oid in ids:
                    found = next_object(run.stdout, oid)
                    if found is None:
                        break
                    yield found
            errors.seek(0)
            self.keep_failure("cat-file", run.returncode, errors.read())

    def reports(self, strict: bool = False) -> dict[str, set[str]]:
        """What git fsck reports of each object."""
        found = collections.defaultdict(set)
        command = self.command("fsck", "--full", "--no-dangling", "--no-progress", *["--strict"] * strict)
        done = subprocess.run(command, capture_output=True, check=False, env=ENVIRONMENT)
        for line in (done.stdout + done.stderr).decode(errors="replace").splitlines():
            if report := re.match(r"(error|warning) in (\w+) ([0-9a-f]+): (\w+)", line):
                found[report[3]].add(f"{report[1]} {report[4]}")
            elif report := re.match(r"error.*?\b([0-9a-f]{64}|[0-9a-f]{40})\b", line):
                found[report[1]].add("error")
            elif report := re.match(r"missing \w+ ([0-9a-f]+)$", line):
                found[report[1]].add("missing")
        # a lower status only says that there are reports
        if not 0 <= done.returncode < 128:
            self.keep_failure("fsck", done.returncode, done.stderr)
        return found
