"""Audits repositories with objects that are damaged or missing, or with a git that is killed. Needs git."""
import itertools
import os
import shutil
import subprocess
import sys
import tempfile
import zlib

import cinguepo
from cinguepo import _git

TOP = os.path.dirname(os.path.abspath(__file__))
WHO = {f"GIT_{it}_{part}": value for it in ("AUTHOR", "COMMITTER") for part, value in
       (("NAME", "A"), ("EMAIL", "a@b"), ("DATE", "1700000000 +0130"))}
# its `cat-file --batch` prints so many objects, and then is killed
KILLED_GIT = """#!{python}
import os, subprocess, sys
command = ["{git}", *sys.argv[1:]]
if "--batch" not in command:
    os.execv(command[0], command)
run = subprocess.Popen(command, stdout=subprocess.PIPE)
for _ in range({count}):
    line = run.stdout.readline()
    parts = line.split()
    sys.stdout.buffer.write(line + (run.stdout.read(int(parts[2]) + 1) if len(parts) == 3 else b""))
sys.stdout.flush()
os.kill(os.getpid(), 9)
"""


class Sample:
    """A repository of a commit, its tree and 20 blobs, and of a malformed commit. That has the greatest id, so git
    reads it last."""

    def __init__(self, folder, hash="sha1"):
        self.folder = folder
        self.git("init", "-q", f"--object-format={hash}", ".")
        for number in range(20):
            with open(f"{folder}/f{number}", "w", encoding="utf-8") as it:
                it.write(f"file {number}\n")
        self.git("add", ".")
        self.git("commit", "-q", "-m", "title")
        self.blob, number = self.git("rev-parse", "HEAD:f7"), cinguepo.Hash[hash.upper()]
        last = next(it for it in (b"tree %d" % it for it in itertools.count())
                    if cinguepo.object_id(cinguepo.Kind.COMMIT, it, number).startswith("fff"))
        self.malformed = self.write("commit", last)
        assert self.ids()[-1] == self.malformed and len(self.ids()) == 23

    def git(self, *words, data=None):
        env = {**os.environ, **WHO}
        done = subprocess.run(["git", *words], cwd=self.folder, input=data, capture_output=True, check=True, env=env)
        return done.stdout.decode().strip()

    def write(self, kind, data):
        return self.git("hash-object", "-w", "--literally", "-t", kind, "--stdin", data=data)

    def ids(self):
        return self.git("cat-file", "--batch-all-objects", "--batch-check=%(objectname)").split()

    def loose(self, oid):
        """The path of a loose object, which may be written."""
        path = f"{self.folder}/.git/objects/{oid[:2]}/{oid[2:]}"
        os.chmod(path, 0o644)
        return path

    def audit(self, path=""):
        """The status, the faults by id, what is printed of git, and the last line. The malformed commit is always
        reported, and no other message of fsck."""
        command = [sys.executable, "-m", "cinguepo", "audit", self.folder]
        env = {**os.environ, "PATH": f"{path}:{os.environ['PATH']}"}
        done = subprocess.run(command, cwd=TOP, capture_output=True, check=False, text=True, env=env)
        assert not done.stderr, done.stderr
        *lines, last = done.stdout.splitlines()
        message = f"error in commit {self.malformed}: unterminatedHeader"
        assert lines.count(message) == ("gixobj_c_fsck" in cinguepo.LIBRARIES), done.stdout
        lines = [it for it in lines if it != message]
        of_git = [it[len("git: "):] for it in lines if it.startswith("git: ")]
        words = [it.partition("; git fsck: ")[0].split(None, 3) for it in lines if not it.startswith("git: ")]
        found = {oid: what for _, oid, _, what in words}
        assert found.pop(self.malformed) == "malformed" and last.startswith(f"{self.folder}: "), done.stdout
        return done.returncode, found, of_git, last[len(self.folder) + 2 :]


def overwrite(path, data, offset=None):
    """Overwrites bytes of a file, or the entire file."""
    with open(path, "wb" if offset is None else "r+b") as it:
        it.seek(offset or 0)
        it.write(data)


def test_sound_objects(sample):
    status, found, of_git, last = sample.audit()
    assert status == 1 and not found and not of_git, found
    assert last.startswith("23 of 23 objects read: ") and ", 1 faulty; " in last, last
    os.remove(sample.loose(sample.malformed))
    command = [sys.executable, "-m", "cinguepo", "audit", sample.folder]
    done = subprocess.run(command, cwd=TOP, capture_output=True, check=True, text=True)
    assert "22 of 22 objects read: " in done.stdout and ", 0 faulty; " in done.stdout, done.stdout


def test_fsck(sample):
    """A warning doesn't change the status. It is an error in a strict check, as git fsck prints it."""
    if "gixobj_c_fsck" not in cinguepo.LIBRARIES:
        return
    os.remove(sample.loose(sample.malformed))
    tree = sample.write("tree", b"100644 .git\0" + bytes.fromhex(sample.blob))
    for options, word, status in ([], "warning", 0), (["--strict"], "error", 1):
        command = [sys.executable, "-m", "cinguepo", "audit", *options, sample.folder]
        done = subprocess.run(command, cwd=TOP, capture_output=True, check=False, text=True)
        message, last = done.stdout.splitlines()
        assert message == f"{word} in tree {tree}: hasDotgit" and done.returncode == status, done.stdout
        counts = f"{status} error, {1 - status} warning"
        assert ", 0 faulty; " in last and f"; fsck: {counts}" in last, last
        command = ["git", "-C", sample.folder, "fsck", *options]
        done = subprocess.run(command, capture_output=True, check=False, text=True)
        assert message in done.stderr and done.returncode == status, done.stderr


def test_unknown_kind(sample):
    """Git ends at an object of an unknown kind, and the objects after it are read."""
    bogus = sample.write("bogus", b"x")
    assert sample.ids().index(bogus) < 20
    status, found, of_git, last = sample.audit()
    assert status == 1 and list(found) == [bogus] and found[bogus].startswith("unreadable: fatal: "), found
    assert "fatal: invalid object type" in of_git and "cat-file ended with status 128" in of_git, of_git
    assert last.startswith("23 of 24 objects read: ") and " 1 unreadable, 2 faulty; " in last, last


def test_replaced_objects(sample):
    """The objects themselves are read, and no replacements."""
    sample.git("replace", sample.blob, sample.git("rev-parse", "HEAD:f8"))
    status, found, of_git, _ = sample.audit()
    assert status == 1 and not found and not of_git, found


def test_killed_git(sample):
    """A git that is killed after 5 objects is started again. One that reads none leaves each object as a fault."""
    with tempfile.TemporaryDirectory() as path:
        for count in (5, 23):
            write_git(path, count)
            status, found, of_git, last = sample.audit(path)
            assert status == 1 and not found and of_git == ["cat-file was killed by signal 9"], (found, of_git)
            assert last.startswith("23 of 23 objects read: "), last
        write_git(path, 0)
        command = [sys.executable, "-m", "cinguepo", "audit", sample.folder]
        env = {**os.environ, "PATH": f"{path}:{os.environ['PATH']}"}
        done = subprocess.run(command, cwd=TOP, capture_output=True, check=False, text=True, env=env)
        assert done.returncode == 1 and "0 of 23 objects read: 23 unreadable, 23 faulty; " in done.stdout, done.stdout
        for oid in sample.ids():
            assert f"object {oid} here: unreadable: cat-file was killed by signal 9; " in done.stdout, done.stdout


def write_git(path, count):
    overwrite(f"{path}/git", KILLED_GIT.format(python=sys.executable, git=shutil.which("git"), count=count).encode())
    os.chmod(f"{path}/git", 0o755)


def test_loose_objects(sample):
    """A loose object of other bytes, one that is truncated, and one of another id; the objects after them are read."""
    content = zlib.compress(b"blob 10000\0" + os.urandom(10000))
    for data, what, read in ((b"other bytes", "unreadable: ", 22), (content[:5000], "unreadable: ", 22),
                             (zlib.compress(b"blob 1\0x"), "another id", 23)):
        overwrite(sample.loose(sample.blob), data)
        status, found, _, last = sample.audit()
        assert status == 1 and list(found) == [sample.blob] and found[sample.blob].startswith(what), found
        assert last.startswith(f"{read} of 23 objects read: ") and ", 2 faulty; " in last, last


def test_missing_object(sample):
    """An object is missing that the commit has: git fsck knows it."""
    os.remove(sample.loose(sample.blob))
    status, found, _, last = sample.audit()
    assert status == 1 and found == {sample.blob: "missing"} and last.startswith("22 of 23 objects read: "), found


def test_pack(sample):
    """An object of a pack is damaged; then the index of the pack."""
    sample.git("-c", "pack.window=0", "repack", "-adq")
    sample.git("prune-packed")
    folder = f"{sample.folder}/.git/objects/pack"
    index, = (f"{folder}/{it}" for it in os.listdir(folder) if it.endswith(".idx"))
    pack = index[:-3] + "pack"
    offset, = (int(line.split()[4]) for line in sample.git("verify-pack", "-v", index).splitlines()
               if line.startswith(sample.blob))
    os.chmod(pack, 0o644)
    overwrite(pack, b"\xff" * 4, offset + 1)
    status, found, of_git, last = sample.audit()
    assert status == 1 and list(found) == [sample.blob] and found[sample.blob].startswith("unreadable: "), found
    assert any(it.startswith("error: ") for it in of_git) and last.startswith("22 of 23 objects read: "), of_git
    os.chmod(index, 0o644)
    os.truncate(index, 100)
    status, found, of_git, last = sample.audit()
    assert status == 1 and any(it.startswith("error: ") for it in of_git), of_git
    assert found and set(found.values()) == {"missing"} and last.startswith("1 of "), (found, last)


def test_blocks(sample):
    """All objects are read in order, whatever the number of one run of git is."""
    ids, before = sample.ids(), _git.BLOCK
    for _git.BLOCK in (1, 22, 23, 24):
        assert [it.id for it in _git.Repository(sample.folder).objects(ids) if it.kind] == ids
    _git.BLOCK = before


def test_limit(sample):
    """A git that reads none of 3 objects isn't started for the others."""
    with tempfile.TemporaryDirectory() as path:
        write_git(path, 0)
        before = _git.MAX_UNREADABLE, _git.ENVIRONMENT
        _git.MAX_UNREADABLE, _git.ENVIRONMENT = 3, {**os.environ, "PATH": f"{path}:{os.environ['PATH']}"}
        problems = [it.problem for it in _git.Repository(sample.folder).objects(sample.ids())]
        _git.MAX_UNREADABLE, _git.ENVIRONMENT = before
    assert problems == ["cat-file was killed by signal 9"] * 3 + ["not read"] * 20, problems


def test_sha256(sample):
    bogus = sample.write("bogus", b"y")
    status, found, _, last = sample.audit()
    assert status == 1 and list(found) == [bogus] and last.startswith("23 of 24 objects read: "), found


TESTS = (test_sound_objects, test_fsck, test_unknown_kind, test_replaced_objects, test_killed_git, test_loose_objects,
         test_missing_object, test_pack, test_blocks, test_limit, test_sha256)
if shutil.which("git"):
    for test in TESTS:
        with tempfile.TemporaryDirectory() as place:
            test(Sample(place, "sha256" if test is test_sha256 else "sha1"))
print("ok")
