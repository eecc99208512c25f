"""Tests a shared library of these static libraries, and of no other one, and the module without a shared library:
test_libraries.py NAME.."""
import os
import shutil
import subprocess
import sys
import tempfile

import cinguepo as g

EMPTY = "4b825dc642cb6eb9a060e54bf8d69288fbee4904"
WHO = b" A <a@b> 0 +0000\n"
COMMIT = b"tree " + EMPTY.upper().encode() + b"\nauthor" + WHO + b"committer" + WHO + b"\nm\n"
NAMES = sys.argv[1:]
CALLS = {
    "gixobj_c_reencode": lambda: g.reencode(g.Kind.COMMIT, COMMIT) == COMMIT.replace(EMPTY.upper().encode(), EMPTY.encode()),
    "gixobj_c_fsck": lambda: g.fsck(g.Kind.TREE, b"") == [],
    "gixobj_c_edit": lambda: g.edit(EMPTY, b"")[0] == EMPTY,
}
HOW = "libcinguepo.so has no {}: `make -C bindings/python` builds one that has it"


def test_calls():
    """A call of a missing library raises the error that says how to build it."""
    assert sorted(g.LIBRARIES) == sorted(NAMES)
    assert g.object_id(g.Kind.BLOB, b"hello\n") == "ce013625030ba8dba906f756967f9e9ca394464a"
    for name, call in CALLS.items():
        try:
            assert call() and name in NAMES
        except g.MissingLibraryError as error:
            assert name not in NAMES and error.library == name and str(error) == HOW.format(name)


WITHOUT = """
import os
import cinguepo as g

calls = (lambda: g.check(3, b""), lambda: list(g.entries(b"")), lambda: g.message(b""), lambda: g.reencode(3, b""),
         lambda: g.edit("", b""), lambda: g.fsck(3, b""), lambda: g.LIBRARIES)
for call in calls:
    try:
        call()
        raise AssertionError("no error")
    except g.MissingLibraryError as error:
        assert isinstance(error, OSError) and error.library == "gixobj_c"
        assert f"{os.environ['CINGUEPO_LIB']}: " in str(error) and "`make -C bindings/python LIBRARIES=" in str(error)
"""


def test_without_shared_library():
    """The module is imported and the help is printed. Each call raises the error that says how to build the library.
    The same holds with a library that lacks the calls."""
    folder, module = os.path.dirname(os.path.abspath(__file__)), [sys.executable, "-m", "cinguepo"]

    def run(path, *command):
        env = {**os.environ, "CINGUEPO_LIB": path}
        done = subprocess.run(command, cwd=folder, capture_output=True, check=False, text=True, env=env)
        assert "Traceback" not in done.stderr, done.stderr
        return done

    for path in ("/nowhere/x.so", "libc.so.6"):
        for option in ("-h", "--help"):
            done = run(path, *module, option)
            assert done.returncode == 0 and "python -m cinguepo audit" in done.stdout and not done.stderr
        done = run(path, *module)
        assert done.returncode == 2 and "python -m cinguepo audit" in done.stderr and not done.stdout
        assert run(path, sys.executable, "-c", WITHOUT).returncode == 0
        if shutil.which("git"):
            with tempfile.TemporaryDirectory() as place:
                subprocess.run(["git", "init", "-q", place], check=True)
                done = run(path, *module, "audit", place)
            assert done.returncode == 1 and "`make -C bindings/python LIBRARIES=gixobj_c`" in done.stderr, done.stderr


def test_audit():
    """The audit reports a malformed commit, and one that re-encodes differently. Without a library its last line says
    what that would check, and how to build it."""
    if not shutil.which("git"):
        return
    with tempfile.TemporaryDirectory() as folder:

        def git(*words, data=b""):
            done = subprocess.run(["git", *words], cwd=folder, input=data, capture_output=True, check=True)
            return done.stdout.decode().strip()

        command = [sys.executable, "-m", "cinguepo", "audit", folder]
        top = os.path.dirname(os.path.abspath(__file__))
        assert subprocess.run(command, cwd=top, capture_output=True, check=False).returncode == 1, "no repository"
        git("init", "-q")
        commit, malformed = (git("hash-object", "-w", "--literally", "-t", "commit", "--stdin", data=data)
                             for data in (COMMIT, COMMIT[:60]))
        done = subprocess.run(command, cwd=top, capture_output=True, check=False, text=True)
        command[-1:] = ["--strict", folder]
        strict = subprocess.run(command, cwd=top, capture_output=True, check=False, text=True)
    assert done.returncode == 1 and not done.stderr, done.stderr
    *lines, last = done.stdout.splitlines()
    has_fsck, how = "gixobj_c_fsck" in NAMES, HOW.format("gixobj_c_fsck")
    messages = [it for it in lines if it.startswith(("error in ", "warning in "))]
    assert messages == [f"error in commit {malformed}: unterminatedHeader"] * has_fsck, messages
    assert ("; fsck: 1 error, 0 warning" in last) == has_fsck and (f"; no fsck: {how}" in last) != has_fsck, last
    assert strict.returncode == 1 and strict.stderr == ("" if has_fsck else f"cinguepo: {how}\n"), strict.stderr
    faults = [it for it in lines if it not in messages]
    found = {oid: what for _, oid, _, what in (line.partition(";")[0].split(None, 3) for line in faults)}
    wanted = {malformed: "malformed"}
    if "gixobj_c_reencode" in NAMES:
        wanted[commit] = "re-encodes differently"
    else:
        assert "; encodings weren't compared: " + HOW.format("gixobj_c_reencode") in last, last
    assert found == wanted, found
    assert last.startswith(f"{folder}: ") and f" {len(wanted)} faulty; " in last, last
    assert ("compared" in last) == ("gixobj_c_reencode" not in NAMES), last


test_calls()
test_without_shared_library()
test_audit()
print("ok")
