#!/usr/bin/env python3
"""Makes a small history with `git fast-import`, and records what git prints of it for the program `gixobj_cli_batch`.

`python3 examples/histories.py FOLDER` makes two repositories in a new folder, one for each object format. For each it
writes FOLDER/FORMAT.batch, the output of `git cat-file --batch-all-objects --batch`, and what git prints:

- FORMAT.log: `git log --first-parent`, with id, author and title
- FORMAT.ls: `git ls-tree -r -z` of the last commit, with a newline for each zero byte
- FORMAT.diff: `git diff-tree -r -z` from the first commit to the last one, with a tab before each path and a newline after
- FORMAT.ids: the ids of the last and the first commit

The last commit is a merge. A path has a quote and a letter outside ASCII; a file becomes a symbolic link, another one a
directory; one entry is a submodule's commit. `tools/batch-test` compares them with what the program prints.
"""

import os
import sys

from recorded import run_git

FORMATS = ["sha1", "sha256"]


def commit(mark, name, seconds, message, parents, changes):
    """A command of `git fast-import` that makes a commit."""
    yield f"commit refs/heads/main\nmark :{mark}\n"
    yield f"author {name} <{name.split()[0].lower()}@example.com> {seconds} +0100\n"
    yield f"committer C O Mitter <c@example.com> {seconds} +0000\n"
    yield f"data {len(message.encode())}\n{message}\n"
    for verb, parent in zip(["from", "merge"], parents):
        yield f"{verb} :{parent}\n"
    yield from changes
    yield "\n"


def file(mode, content, path):
    """A change of a commit: a file at a path."""
    return f'M {mode} inline {path}\ndata {len(content.encode())}\n{content}\n'


def history(length):
    """The input of `git fast-import`. `length` is that of an id in hex."""
    yield from commit(1, "A U Thor", 1700000000, "First\n\nbody\n", [], [
        file("100644", "one\n", "a.txt"), file("100755", "run\n", "bin/run"), file("100644", "", "dir/sub/deep.txt"),
        file("100644", "same\n", "lib/same.txt"), file("100644", "plain\n", "link"), file("100644", "x\n", "name")])
    yield from commit(2, "Side", 1700000010, "Aside\n", [1], [file("100644", "s\n", "side.txt")])
    yield from commit(3, "Zo\u00eb Q", 1700000020, "Two lines\nof a title\n\nbody\n", [1], [
        file("100644", "two\n", "a.txt"), "D dir/sub/deep.txt\n", file("100644", "d\n", "dir.txt"), "D name\n",
        file("100644", "y\n", "name/below"), file("120000", "a.txt", "link")])
    yield from commit(4, "A U Thor", 1700000030, "Merge\n", [3, 2], [
        file("100644", "s\n", "side.txt"), file("100644", "run\n", "bin/run"),
        file("100644", "q\n", '"quo\\"te \u00e9"'), f"M 160000 {'1' * length} module\n"])


def record(folder, object_format):
    """Makes the repository of a format. Returns the names and the bytes of what is recorded."""
    repository = os.path.join(folder, object_format)
    os.makedirs(repository)
    run_git(repository, "init", "-q", f"--object-format={object_format}")
    text = "".join(history(40 if object_format == "sha1" else 64)).replace('data 0\n\n', 'data 0\n')
    run_git(repository, "fast-import", "--quiet", input=text.encode())
    tip = run_git(repository, "rev-parse", "main").decode().strip()
    first = run_git(repository, "rev-list", "--max-parents=0", "main").decode().strip()
    batch = run_git(repository, "cat-file", "--batch-all-objects", "--batch")
    log = run_git(repository, "log", "--first-parent", "--format=%H %an <%ae> %s", "main")
    listed = run_git(repository, "ls-tree", "-r", "-z", "main").replace(b"\0", b"\n")
    parts = run_git(repository, "diff-tree", "-r", "-z", first, tip).split(b"\0")
    changes = b"".join(head + b"\t" + path + b"\n" for head, path in zip(parts[::2], parts[1::2]))
    ids = f"{tip}\n{first}\n".encode()
    for name, content in [("batch", batch), ("log", log), ("ls", listed), ("diff", changes), ("ids", ids)]:
        with open(os.path.join(folder, f"{object_format}.{name}"), "wb") as it:
            it.write(content)


def main(folder):
    for object_format in FORMATS:
        record(folder, object_format)


main(sys.argv[1])
