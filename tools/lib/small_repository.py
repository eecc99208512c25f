"""A small repository in a temporary folder, for the tests of scripts: `tools/scripts-test`."""

import os
import shutil
import subprocess
import sys

TOP = os.path.dirname(os.path.dirname(os.path.dirname(os.path.abspath(__file__))))
SCRIPTS = ("take", "mutants", "definitions")
CRATES = """# the crates, lowest first
low: bstr
left: low  # the default of `take` is gix_object
apart: bstr
gix_object: left low thiserror
"""
# A fake of rt: a mutant with the new text `proved` is proved, one with the new text `named` takes a name away, each
# other is rejected. It prints what rt prints, and fails if a library wasn't copied.
RT = """#!/bin/sh
[ "$1" = must-fail ] || exit 9
[ -e crates/low/out/rlib/stamp ] || { echo "rt: low isn't proved"; exit 1; }
status=0
for edit in crates/"$2"/must-fail/*.edit; do
    label="must-fail $2/${edit##*/}"
    old=$(sed -n 's/^old: //p' "$edit")
    if ! grep -qF -e "$old" "crates/$2/src/lib.rt"; then
        echo "rt: $label: BAD EDIT: this text is not in src/lib.rt: $old"
        status=1
    elif grep -q '^new: proved' "$edit"; then
        echo "rt: $label: NOT REFUSED: the crate is still proved with this edit"
        status=1
    elif grep -q '^new: named' "$edit"; then
        echo "rt: $label: refused, as it must be (only because a proof file names what the edit took away)"
    else
        echo "rt: $label: refused, as it must be: src/lib.rt:1:1: error: not proved"
    fi
done
exit $status
"""


def text_of(path):
    with open(path, encoding="utf-8") as it:
        return it.read()


def write(path, text, mode=0o644):
    os.makedirs(os.path.dirname(path), exist_ok=True)
    with open(path, "w", encoding="utf-8") as out:
        out.write(text)
    os.chmod(path, mode)


def same(found, wanted):
    """Fails unless both are equal."""
    assert found == wanted, f"{found!r}, not {wanted!r}"


class Repository:
    """A small repository with the scripts, an empty folder, and a path with the fake of rt."""

    def __init__(self, folder):
        self.top, self.other = f"{folder}/top", f"{folder}/other"
        os.makedirs(self.other)
        shutil.copytree(f"{TOP}/tools/lib", f"{self.top}/tools/lib")
        for name in SCRIPTS:
            shutil.copy(f"{TOP}/tools/{name}", f"{self.top}/tools/{name}")
        for name in ("HANDLES", "LICENSE-APACHE", "LICENSE-MIT"):
            write(f"{self.top}/{name}", f"{name}\n")
        write(f"{self.top}/crates.txt", CRATES)
        write(f"{self.top}/CHANGELOG.md", "# Changelog\n")
        for name in ("low", "left", "apart", "gix_object"):
            write(f"{self.top}/crates/{name}/src/lib.rt", f"{name}\n")
        write(f"{folder}/bin/rt", RT, 0o755)
        self.env = {**os.environ, "PATH": f"{folder}/bin:{os.environ['PATH']}"}

    def run(self, script, *arguments):
        """The status of a script, its output and its errors."""
        how = dict(stdout=subprocess.PIPE, stderr=subprocess.PIPE, text=True, cwd=self.top, env=self.env)
        ended = subprocess.run([sys.executable, f"tools/{script}", *arguments], timeout=120, check=False, **how)
        return ended.returncode, ended.stdout, ended.stderr

    def take(self, *names):
        return self.run("take", self.other, *names)

    def update(self):
        return self.run("take", "--update", self.other)
