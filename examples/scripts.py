#!/usr/bin/env python3
"""Makes scripts of random edits, and what `gixobj edit` prints for each.

`python3 examples/scripts.py FOLDER` makes repositories in a new folder, two with ids of SHA-1 and one of SHA-256. It
prints the table of the scripts, crates/gixobj_tests_replay_messages/data/random-scripts.tsv. Each script has a line with its
name, `git`, the object format, the script and its output.

The ids are git's. Each script also edits a plain set of files, and at a write git makes the tree of those files:
`git update-index --index-info` and `git write-tree --missing-ok`. The rest of the output follows from two rules:

- A directory is opened if a path goes through it. It is looked up then, unless it is new or has the null id.
- A write emits the written directory, and each open directory below it that has a file and whose tree differs from the
  one that it was opened with. After the write no directory below is open. The written one is still open, and the tree
  that it was opened with is the same as before.
"""

import os
import random
import sys

from recorded import run_git

HEADER = """\
# Scripts of random edits, run on the empty root over an empty store. Columns: name, source, the kind of ids, the
# script, its output. In a script and in its output '\\n' is a newline. examples/scripts.py makes the rows.
# git: each script also edits a plain set of files. The ids are those of its trees, by 'git update-index --index-info'
# in an empty index, and then 'git write-tree --missing-ok'.
# git: the scripts of a pair 'ways-..-a' and 'ways-..-b' make the same files in two ways. So their last ids are equal.
# rule: after an id there is the number of emitted trees. A write emits the written directory, and each open directory
# below it that has a file and whose tree, by git, differs from the one that it was opened with. After the write no
# directory below is open. A new directory was opened with no tree.
# rule: the lookups are the directories that were opened, except for new ones and those of the null id.
# rule: 'refused 1' is printed for an empty name, and 'refused 3' for a directory that the store lacks. 'refused 4' and
# the path are printed for a directory that would be removed as a leaf."""

MODES = {"blob": "100644", "exe": "100755", "link": "120000", "commit": "160000"}
OK = "ok"


class Git:
    """A new repository with ids of one kind."""

    def __init__(self, folder, object_format, name=None):
        self.folder = os.path.join(os.path.abspath(folder), name or object_format)
        run_git("/", "init", "-q", f"--object-format={object_format}", self.folder)
        contents = ["one\n", "two\n", "three\n", "four\n"]
        self.ids = [self.output("hash-object", "--stdin", input=it) for it in contents]
        self.unknown = self.output("hash-object", "--stdin", input="no tree\n")
        self.null = "0" * len(self.unknown)

    def output(self, *arguments, input=""):
        return run_git(self.folder, *arguments, input=input.encode()).decode().strip()

    def tree_of(self, files):
        """The id of the tree of these files."""
        lines = [f"{MODES[kind]} {id}\t{'/'.join(path)}\n" for path, (kind, id) in files.items()]
        self.output("read-tree", "--empty")
        self.output("update-index", "--index-info", input="".join(lines))
        return self.output("write-tree", "--missing-ok")

    def directories_of(self, tree):
        """The path and the id of each directory in a tree."""
        lines = self.output("ls-tree", "-r", "-d", tree).splitlines()
        entries = [line.split(None, 3) for line in lines]
        return [(tuple(path.split("/")), id) for _, kind, id, path in entries if kind == "tree"]


def prefixes(path):
    """The paths of the parent directories of a path, and the path itself."""
    return [path[: length + 1] for length in range(len(path))]


def is_below(path, directory):
    return len(path) > len(directory) and path[: len(directory)] == directory


class PlainFiles:
    """A plain set of files, and the open directories, each with the tree that it was opened with, or None."""

    def __init__(self, git):
        self.git = git
        self.lookups = 0
        # the files of each written tree, by its id
        self.store = {}
        self.set_root()

    def set_root(self):
        """Sets the empty root."""
        self.files = {}
        self.open = {(): None}
        self.null_directories = set()
        return OK

    def below(self, directory):
        """The files below a directory, by their paths from there."""
        return {path[len(directory) :]: it for path, it in self.files.items() if is_below(path, directory)}

    def is_unknown(self, path):
        """Whether a tree is at the path that the store lacks."""
        return path in self.files and self.files[path][0] == "tree"

    def is_directory(self, path):
        is_listed = path in self.open or path in self.null_directories or self.is_unknown(path)
        return is_listed or bool(self.below(path))

    def open_path(self, path, opens_null=True):
        """Opens the directories on a path up to the first missing one. Returns an error if the store lacks one."""
        for prefix in prefixes(path):
            if prefix in self.open:
                continue
            is_null = prefix in self.null_directories
            if not self.is_directory(prefix) or (is_null and not opens_null):
                break
            self.lookups += not is_null
            if self.is_unknown(prefix):
                return "refused 3"
            self.open[prefix] = None if is_null else self.git.tree_of(self.below(prefix))
            self.null_directories.discard(prefix)
        return OK

    def ensure(self, path):
        """Ensures that each prefix of a path is an open directory, also in place of a file."""
        for prefix in prefixes(path):
            self.files.pop(prefix, None)
            self.null_directories.discard(prefix)
            self.open.setdefault(prefix, None)

    def clear(self, path):
        """Removes everything at and below a path."""

        def remains(it):
            return it != path and not is_below(it, path)

        self.files = {it: file for it, file in self.files.items() if remains(it)}
        self.open = {it: base for it, base in self.open.items() if remains(it)}
        self.null_directories = set(filter(remains, self.null_directories))

    def upsert(self, path, kind, id):
        if "" in path:
            return "refused 1"
        reply = self.open_path(path[:-1])
        if reply != OK or not path:
            return reply
        self.ensure(path[:-1])
        self.clear(path)
        if id == self.git.null:
            self.null_directories |= {path} if kind == "tree" else set()
        elif id in self.store:
            self.files.update({path + rest: it for rest, it in self.store[id].items()})
        else:
            self.files[path] = (kind, id)
        return OK

    def remove(self, path, is_leaf=False):
        """Removes an entry. Checks the first empty name only if the directory before it exists."""
        parent = path[: path.index("")] if "" in path else path[:-1]
        reply = self.open_path(parent, opens_null=not is_leaf)
        if reply != OK or not path:
            return reply
        if "" in path:
            return "refused 1" if parent in self.open else OK
        if is_leaf and self.is_directory(path):
            return "refused 4 " + "/".join(path)
        self.clear(path)
        return OK

    def cursor_at(self, prefix):
        """Opens the directory at a prefix, or creates it."""
        if "" in prefix:
            return "refused 1"
        reply = self.open_path(prefix)
        if reply == OK:
            self.ensure(prefix)
        return reply

    def write(self, directory):
        """The line of a write: the id of the written tree, and the number of emitted trees. The store then has them."""
        files = self.below(directory)
        id = self.git.tree_of(files)
        trees = {directory + path: inner for path, inner in self.git.directories_of(id)}
        emitted = [it for it, base in self.open.items() if it in trees and trees[it] != base]
        self.open = {it: base for it, base in self.open.items() if not is_below(it, directory)}
        self.null_directories = {it for it in self.null_directories if not is_below(it, directory)}
        if files:
            self.store[id] = files
        for path, inner in trees.items():
            self.store[inner] = self.below(path)
        return f"wrote {id} {len(emitted) + 1}"


def encode_path(path):
    return "/".join(path) if path else "."


def encode_prefix(prefix):
    return "" if prefix is None else f"at {encode_path(prefix)} "


def column(lines):
    return "".join(f"{line}\\n" for line in lines)


class Script:
    """A script that is drawn line by line, and the reply to each line."""

    def __init__(self, git, draw, names, depth, is_run):
        self.plain = PlainFiles(git)
        self.git = git
        self.draw = draw
        self.names = names
        self.depth = depth
        self.is_run = is_run
        self.has_all_kinds = is_run
        self.lines = []
        self.replies = []

    def path(self):
        """A path, often at, above or below a file; in runs sometimes without names, or with an empty name."""
        number = self.draw.randrange(40)
        if self.is_run and number < 2:
            return () if number else (self.draw.choice(self.names), "", "a")
        path = tuple(self.draw.choices(self.names, k=self.draw.randint(1, self.depth)))
        if number < 16 and self.plain.files:
            unknown = list(filter(self.plain.is_unknown, self.plain.files))
            file = self.draw.choice(unknown or list(self.plain.files))
            length = self.draw.randint(1, len(file) + 1)
            return file[:length] + (path[:1] if length > len(file) else ())
        return path

    def entry(self):
        """The kind and the id of an upsert; in runs sometimes a stored tree, an unknown one, or the null id."""
        number = self.draw.randrange(0 if self.is_run else 7, 16) if self.has_all_kinds else 15
        if number < 4 and self.plain.store:
            return "tree", self.draw.choice(list(self.plain.store))
        if number == 4:
            return "tree", self.git.unknown
        if number in (5, 6):
            return self.draw.choice(["tree", "blob"]), self.git.null
        kind = self.draw.choice(list(MODES)) if number < 10 else "blob"
        return kind, self.draw.choice(self.git.ids)

    def edit(self, prefix=None):
        """An edit, from the root or by a cursor."""
        path = self.path()
        number = self.draw.randrange(8)
        if number < 5:
            self.upsert(prefix, path, *self.entry())
        else:
            self.remove(prefix, path, is_leaf=number == 7)

    def add(self, prefix, command, call):
        """Adds the line of a command, by a cursor if there is a prefix, and the reply to it."""
        reply = OK if prefix is None else self.plain.cursor_at(prefix)
        self.lines.append(encode_prefix(prefix) + command)
        self.replies.append(call() if reply == OK else reply)

    def upsert(self, prefix, path, kind, id):
        full = full_path(prefix, path)
        self.add(prefix, f"upsert {kind} {id} {encode_path(path)}", lambda: self.plain.upsert(full, kind, id))

    def remove(self, prefix, path, is_leaf):
        full = full_path(prefix, path)
        keyword = "leaf" if is_leaf else "remove"
        self.add(prefix, f"{keyword} {encode_path(path)}", lambda: self.plain.remove(full, is_leaf))

    def write(self, prefix=None):
        """A write, after the removal of trees that the store lacks."""
        for path in filter(self.plain.is_unknown, list(self.plain.files)):
            self.remove(None, path, is_leaf=False)
        self.add(prefix, "write", lambda: self.plain.write(prefix or ()))

    def visit(self):
        """Edits by cursors in one directory, and sometimes a write of it."""
        prefix = self.path()
        prefix = prefix[: self.draw.randint(0, len(prefix))]
        for _ in range(self.draw.randint(1, 4)):
            self.edit(prefix)
        if self.draw.randrange(2):
            self.write(prefix)

    def step(self, visits):
        """A visit, in `visits` of sixteen steps; else an edit, a write, or in runs sometimes a new root."""
        number = self.draw.randrange(16)
        if number < visits:
            self.visit()
        elif number < 14:
            self.edit()
        elif number == 14 or not self.is_run or self.draw.randrange(3):
            self.write()
        else:
            self.set_root()

    def set_root(self):
        self.add(None, "root", self.plain.set_root)

    def change_to(self, files):
        """Removes all other files and inserts these, sometimes by a cursor or after a write."""
        others = [(path, None) for path in self.plain.files if path not in files]
        changed = [(path, it) for path, it in files.items() if self.plain.files.get(path) != it]
        for path, it in self.draw.sample(others, len(others)) + self.draw.sample(changed, len(changed)):
            length = self.draw.randrange(-1, len(path))
            prefix, rest = (None, path) if length < 0 else (path[:length], path[length:])
            if it is None:
                self.remove(prefix, rest, is_leaf=self.draw.randrange(2) == 1)
            elif self.plain.files.get(path) != it:
                self.upsert(prefix, rest, *it)
            if self.draw.randrange(3) == 0:
                self.write(prefix)

    def print_row(self, name, object_format):
        output = [*self.replies, f"lookups {self.plain.lookups}"]
        print(name, "git", object_format, column(self.lines), column(output), sep="\t")


def full_path(prefix, path):
    """The path from the root. Without names it is empty, also by a cursor."""
    return (prefix or ()) + path if path else ()


# the name of a script, its visits in sixteen steps, and whether it is a run, which has all commands and kinds
KINDS = [("edits", 0, False), ("cursors", 11, False), ("runs", 5, True)]
# the name of a script of many edits, whether it has visits, and the number of such scripts
MANY = [("files-after-many-edits", False, 16), ("files-after-many-visits", True, 24)]
FEW_NAMES = ["a", "b", "c", "d"]
NEAR_NAMES = ["a", "a-", "a.b", "a0"]


def random_script(git, draw, number, visits, is_run):
    """A script of ten to sixty lines that ends in a write; each third one has similar names and is deeper."""
    names, depth = (NEAR_NAMES, 5) if number % 3 == 2 else (FEW_NAMES, 3)
    script = Script(git, draw, names, depth, is_run)
    length = draw.randint(9, 52)
    while len(script.lines) < length:
        script.step(visits)
    script.write()
    return script


def script_of_files(git, draw, names, depth, visits):
    """A script of edits of files alone, of all kinds, without a last write."""
    script = Script(git, draw, names, depth, is_run=False)
    script.has_all_kinds = True
    length = draw.randint(6, 24)
    while len(script.lines) < length:
        script.step(visits)
    return script


def pair(git, draw, number):
    """Two scripts that make the same files: a random one, and another one that then changes its files to these."""
    names, depth = (NEAR_NAMES, 4) if number % 3 == 2 else (FEW_NAMES, 3)
    first = script_of_files(git, draw, names, depth, visits=0)
    while len(first.plain.files) < 3:
        first = script_of_files(git, draw, names, depth, visits=0)
    second = script_of_files(git, draw, names, depth, visits=8)
    if number % 4 == 1:
        second.set_root()
    second.change_to(first.plain.files)
    first.write()
    second.write()
    assert first.plain.files == second.plain.files
    return first, second


class Numbers:
    """Pseudo-random numbers that follow from a seed, the same in any program."""

    def __init__(self, seed):
        self.state = seed

    def draw(self):
        self.state = (self.state * 6364136223846793005 + 1442695040888963407) % 2**64
        return self.state >> 33

    def path(self):
        """A path of one to three names."""
        length = self.draw() & 3
        names = [FEW_NAMES[self.draw() & 3] for _ in range(3)]
        return tuple(names[: length + 1])


class ManyEdits(Script):
    """A script of many edits, and of many visits by cursors, drawn by `Numbers`."""

    def __init__(self, git, seed):
        super().__init__(git, None, FEW_NAMES, 3, is_run=False)
        self.numbers = Numbers(seed)
        self.written = ""

    def edit(self, prefix=None):
        path = self.numbers.path()
        choice = self.numbers.draw() & 7
        if choice < 5:
            self.upsert(prefix, path, "blob", f"0{1 + choice}" * 20)
        else:
            self.remove(prefix, path, is_leaf=choice == 7)

    def write(self, prefix=None):
        super().write(prefix)
        self.written = self.replies[-1].split()[1]

    def edits(self):
        """Four writes, each after twelve edits."""
        for step in range(48):
            self.edit()
            if step % 12 == 11:
                self.write()

    def visit_at(self, prefix):
        """Four edits by cursors at a prefix, and sometimes a write of it."""
        for _ in range(4):
            self.edit(prefix)
        if self.numbers.draw() & 1:
            self.write(prefix)

    def load(self, root):
        """Starts again with a written root: inserts its entries, whose directories aren't open."""
        self.set_root()
        for line in self.git.output("ls-tree", root).splitlines():
            _, kind, id, name = line.split()
            self.upsert(None, (name,), kind, id)

    def visits(self):
        """Sixteen steps: a write, a visit and the written root again; a write; an edit; or, mostly, a visit."""
        for _ in range(16):
            number = self.numbers.draw() & 7
            if number == 0:
                self.write()
                root = self.written
                self.visit_at(self.numbers.path())
                self.load(root)
                self.write()
            elif number < 3:
                self.write()
            elif number == 3:
                self.edit()
            else:
                self.visit_at(self.numbers.path()[:-1])


def script_of_many(git, seed, has_visits):
    """A script of many edits or visits."""
    script = ManyEdits(git, seed)
    if has_visits:
        script.visits()
    else:
        script.edits()
    return script


def main(folder):
    os.makedirs(folder)
    print(HEADER)
    for object_format, count in [("sha1", 9), ("sha256", 5)]:
        git = Git(folder, object_format)
        draw = random.Random(object_format)
        for name, visits, is_run in KINDS:
            for number in range(count):
                script = random_script(git, draw, number, visits, is_run)
                script.print_row(f"{name}-{object_format}-{number + 1}", object_format)
        draw = random.Random(f"ways {object_format}")
        for number in range(count):
            first, second = pair(git, draw, number)
            first.print_row(f"ways-{object_format}-{number + 1}-a", object_format)
            second.print_row(f"ways-{object_format}-{number + 1}-b", object_format)
    git = Git(folder, "sha1", "many")
    for name, has_visits, count in MANY:
        for seed in range(1, count + 1):
            script_of_many(git, seed, has_visits).print_row(f"{name}-{seed}", "sha1")


if __name__ == "__main__":
    main(sys.argv[1])
