#!/usr/bin/env python3
"""Makes a history of 1,000 steps of three edits with `git fast-import`, and prints the ids of its commits.

`python3 examples/imports.py FOLDER` makes two repositories in a new folder, one for each object format. For each it
prints the number, the commit and the tree of every hundredth step. `git fsck --strict` must find nothing. `git log`
must print 1,000 commits, each with the one before it as its only parent.

The steps follow a rule, by which crates/gixobj_tests_api/src/imports/thousand.rt makes them too. Step k, from 0, inserts a
file three directories deep and a program at the root. Each is the blob of `k` and a newline. The step also removes a
file, which may be missing.
"""

import os
import sys

from recorded import run_git

STEPS = 1000


def path_of(k):
    """The path of the file that step k inserts."""
    return f"a{k % 10}/b{k % 7}/f{k % 50}"


def steps():
    """The input of `git fast-import`."""
    for k in range(STEPS):
        content = f"{k}\n"
        yield f"blob\nmark :{STEPS + k + 1}\ndata {len(content)}\n{content}\n"
    for k in range(STEPS):
        message = f"step {k}\n"
        yield f"commit refs/heads/main\nmark :{k + 1}\n"
        yield f"author A <a@b> {k} +0000\ncommitter C O <c@d> {k} +0130\n"
        yield f"data {len(message)}\n{message}"
        yield f"M 100644 :{STEPS + k + 1} {path_of(k)}\n"
        yield f"M 100755 :{STEPS + k + 1} run{k % 25}\n"
        yield f"D {path_of(3 * k + 1)}\n\n"


def main(path):
    for object_format in ["sha1", "sha256"]:
        folder = os.path.join(path, object_format)
        os.makedirs(folder)
        run_git(folder, "init", "-q", f"--object-format={object_format}")
        marks = os.path.abspath(os.path.join(path, f"{object_format}.marks"))
        run_git(folder, "fast-import", "--quiet", f"--export-marks={marks}", input="".join(steps()).encode())
        faults = run_git(folder, "fsck", "--strict", "--no-dangling")
        assert not faults, faults
        log = run_git(folder, "log", "--reverse", "--format=%H %P %T", "main").decode()
        # the commit, its parents and the tree of each step
        history = [line.split(" ") for line in log.split("\n")[:STEPS]]
        assert len(history) == STEPS
        assert all(history[k][1] == (history[k - 1][0] if k else "") for k in range(STEPS))
        ids = dict(line.split() for line in open(marks, encoding="ascii"))
        assert all(ids[f":{k + 1}"] == history[k][0] for k in range(STEPS))
        print(object_format)
        for k in range(99, STEPS, 100):
            print(k, history[k][0], history[k][2])


if __name__ == "__main__":
    main(sys.argv[1])
