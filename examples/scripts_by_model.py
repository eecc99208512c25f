#!/usr/bin/env python3
"""Computes the output of a table of scripts again, by `git` and the rules at the head of the table.

`python3 examples/scripts_by_model.py FOLDER TABLE` makes two repositories in a new folder, one for each object format,
and prints the table with a new last column. Lines of the head are unchanged, and so are rows whose output is the number
of a malformed line. The tables are scripts.tsv and stored-scripts.tsv of crates/gixobj_tests_replay_messages/data.

A table with a column of objects before the script is one of scripts over a store of these objects. `git hash-object`
makes their ids, and checks commits and tags. The last line of such an output is `causes`.

An open directory has its entries, and those that it was opened with. `git mktree --missing` makes the id of a tree of
entries. A write emits the written directory, and each directory below it whose tree is nonempty and differs from the
one that it was opened with.
"""

import os
import re
import subprocess
import sys

from recorded import escaped, run_git

MODES = {"tree": "40000", "blob": "100644", "exe": "100755", "link": "120000", "commit": "160000"}


class EditError(Exception):
    """The reply to an edit that fails, and the cause if a directory isn't found."""

    def __init__(self, reply, cause=None):
        super().__init__(reply)
        self.cause = cause


class Git:
    """A new repository with ids of one kind."""

    def __init__(self, folder, object_format):
        self.folder = os.path.join(os.path.abspath(folder), object_format)
        run_git("/", "init", "-q", f"--object-format={object_format}", self.folder)
        self.empty_tree = self.tree_of({})
        self.null = "0" * len(self.empty_tree)

    def output(self, *arguments, input):
        return run_git(self.folder, *arguments, input=input).decode().strip()

    def id_of(self, kind, content):
        """The id of an object, valid or not."""
        return self.output("hash-object", "--literally", "-t", kind, "--stdin", input=content)

    def accepts(self, kind, content):
        """Whether git accepts these bytes as an object of this kind."""
        try:
            self.output("hash-object", "-t", kind, "--stdin", input=content)
        except subprocess.CalledProcessError:
            return False
        return True

    def tree_of(self, entries):
        """The id of the tree of these entries, in order."""
        if any(mode not in MODES.values() for mode, _ in entries.values()):
            names = sorted(entries, key=lambda it: sort_key(it, entries[it][0]))
            parts = [b"%s %s\0%s" % (entries[it][0].encode(), it, bytes.fromhex(entries[it][1])) for it in names]
            return self.id_of("tree", b"".join(parts))
        kinds = {"40000": b"tree", "160000": b"commit"}
        lines = [
            b"%s %s %s\t%s\0" % (mode.encode(), kinds.get(mode, b"blob"), id.encode(), name)
            for name, (mode, id) in entries.items()
        ]
        return self.output("mktree", "-z", "--missing", input=b"".join(lines))


def is_directory(mode):
    return int(mode, 8) & 0o170000 == 0o040000


def sort_key(name, mode):
    """The key by which entries are in git's order."""
    return name + (b"/" if is_directory(mode) else b"")


def mode_of(digits):
    """The mode of these digits as git prints it: 16 bits of it, and a zero before a directory's."""
    return digits if digits == "040000" else f"{int(digits, 8) & 0xffff:o}"


def decode_tree(content, id_len):
    """The name, the mode and the id of each entry of a tree, or None if it is malformed."""
    entries = []
    while content:
        it = re.match(rb"([0-7]{1,7}) ([^\0]*)\0(.{%d})" % id_len, content, re.DOTALL)
        if not it:
            return None
        entries.append((it[2], mode_of(it[1].decode()), it[3].hex()))
        content = content[it.end() :]
    return entries


def is_well_formed(entries):
    names = [name for name, _, _ in entries]
    keys = [sort_key(name, mode) for name, mode, _ in entries]
    are_names = all(name and b"/" not in name for name in names)
    return are_names and len(set(names)) == len(names) and keys == sorted(keys)


class Directory:
    """An open directory: its entries, those that it was opened with, and the open directories in it."""

    def __init__(self, entries):
        self.entries = dict(entries)
        self.base = dict(entries)
        self.inner = {}

    def is_tree(self, name):
        return name in self.entries and is_directory(self.entries[name][0])

    def insert(self, name, entry):
        self.entries[name] = entry
        self.inner.pop(name, None)

    def remove(self, name):
        self.entries.pop(name, None)
        self.inner.pop(name, None)


class Editor:
    """An editor of the empty root, over a store that has some objects, and the trees that were written."""

    def __init__(self, git, objects=()):
        self.git = git
        self.lookups = 0
        # the entries of each written tree, by its id
        self.written = {}
        self.objects = {git.id_of(kind, content): (kind, content) for kind, content in objects}
        self.root = Directory({})

    def find_tree(self, id):
        """The entries of a tree in the store."""
        if id in self.written:
            return self.written[id]
        if id not in self.objects:
            raise EditError("refused 3", "NotFound")
        kind, content = self.objects[id]
        entries = decode_tree(content, len(id) // 2) if kind == "tree" else []
        if entries is None or (kind in ("commit", "tag") and not self.git.accepts(kind, content)):
            raise EditError("refused 3", "Decode")
        if kind != "tree":
            raise EditError("refused 3", "ObjectKind")
        if not is_well_formed(entries):
            raise EditError("refused 5")
        return {name: (mode, id) for name, mode, id in entries}

    def open_directory(self, directory, name):
        """Opens the directory of this name in an open one, which has an entry for it."""
        if name in directory.inner:
            return directory.inner[name]
        id = directory.entries[name][1]
        entries = {}
        if id not in (self.git.null, self.git.empty_tree):
            self.lookups += 1
            entries = self.find_tree(id)
        directory.inner[name] = Directory(entries)
        return directory.inner[name]

    def open_path(self, names):
        """Opens the directories on a path, up to the first missing one."""
        directory = self.root
        for name in names:
            if not directory.is_tree(name):
                return
            directory = self.open_directory(directory, name)

    def ensure_directory(self, names):
        """The directory at a path. It is created if it is missing, also in place of a file."""
        directory = self.root
        for name in names:
            if not directory.is_tree(name):
                directory.insert(name, (MODES["tree"], self.git.null))
                directory.inner[name] = Directory({})
            directory = directory.inner[name]
        return directory

    def cursor_at(self, names):
        """The directory of a cursor."""
        if b"" in names:
            raise EditError("refused 1")
        self.open_path(names)
        return self.ensure_directory(names)

    def upsert(self, names, kind, id):
        directory = self.cursor_at(names[:-1] if b"" not in names else names)
        directory.insert(names[-1], (MODES[kind], id))

    def remove(self, names, is_leaf):
        """Removes an entry. Checks the first empty name only if the directory before it exists."""
        directory = self.root
        for name in names[:-1]:
            if name == b"":
                raise EditError("refused 1")
            if not directory.is_tree(name):
                return
            is_empty = directory.entries[name][1] in (self.git.null, self.git.empty_tree)
            if is_leaf and is_empty and name not in directory.inner:
                return
            directory = self.open_directory(directory, name)
        if names[-1] == b"":
            raise EditError("refused 1")
        if is_leaf and directory.is_tree(names[-1]):
            raise EditError("refused 4 " + escaped(b"/".join(names), {}))
        directory.remove(names[-1])

    def emit_below(self, directory):
        """Emits the changed trees below a directory. Returns the entries of its own tree, and their number."""
        written, count = {}, 0
        for name, (mode, id) in directory.entries.items():
            if name in directory.inner:
                inner = directory.inner[name]
                entries, count_below = self.emit_below(inner)
                count += count_below
                if not entries:
                    continue
                if entries != inner.base:
                    id = self.emit(entries)
                    count += 1
            if id != self.git.null:
                written[name] = (mode, id)
        return written, count

    def emit(self, entries):
        """Emits the tree of these entries, which the store then has. Returns its id."""
        id = self.git.tree_of(entries)
        self.written[id] = dict(entries)
        return id

    def write(self, directory):
        entries, count = self.emit_below(directory)
        directory.entries, directory.inner = entries, {}
        return f"wrote {self.emit(entries)} {count + 1}"


def unescaped(column):
    """The bytes of a column, in which `\\n` is a newline, and `\\xNN` any byte."""

    def byte(it):
        return b"\n" if it[0] == b"\\n" else bytes([int(it[1], 16)])

    return re.sub(rb"\\n|\\x(..)", byte, column.encode())


def names_of(path):
    return [] if path == b"." else path.split(b"/")


def run_edit(editor, prefix, line):
    """The reply to an edit, whose path follows the names of a prefix."""
    keyword, _, rest = line.partition(b" ")
    if keyword == b"write":
        return editor.write(editor.ensure_directory(prefix))
    kind, id = None, None
    if keyword == b"upsert":
        kind, id, rest = rest.split(b" ", 2)
    names = names_of(rest)
    if not names:
        return "ok"
    if keyword == b"upsert":
        editor.upsert(prefix + names, kind.decode(), id.decode().lower())
    else:
        editor.remove(prefix + names, keyword == b"leaf")
    return "ok"


def run_command(editor, line):
    """The reply to a command."""
    if line == b"root":
        editor.root = Directory({})
        return "ok"
    prefix = []
    if line.startswith(b"at "):
        path, _, line = line[3:].partition(b" ")
        prefix = [] if path == b"" else names_of(path)
        editor.cursor_at(prefix)
    return run_edit(editor, prefix, line)


def output_lines(git, script, objects=None):
    """The output of a script: a line for each command, then the lookups, and over objects the causes."""
    editor = Editor(git, objects or ())
    causes = ["causes"]
    for line in filter(None, script.split(b"\n")):
        try:
            yield run_command(editor, line)
        except EditError as error:
            causes += [error.cause] if error.cause else []
            yield str(error)
    yield f"lookups {editor.lookups}"
    if objects is not None:
        yield " ".join(causes)


def output(git, script, objects=None):
    """The output of a script, as a table has it."""
    return "".join(f"{line}\\n" for line in output_lines(git, unescaped(script), objects))


def objects_of(column):
    """The objects of a column: of each the name of its kind, and after an 'x' its bytes in hex."""
    fields = [] if column == "-" else column.split(" ")
    return [(kind, bytes.fromhex(content[1:])) for kind, content in zip(fields[::2], fields[1::2])]


def main(folder, table):
    sys.setrecursionlimit(10000)
    os.makedirs(folder)
    gits = {it: Git(folder, it) for it in ("sha1", "sha256")}
    for row in open(table, encoding="ascii").read().splitlines():
        columns = row.split("\t")
        if not row.startswith("#") and not columns[-1].startswith("line "):
            objects = objects_of(columns[3]) if len(columns) == 6 else None
            columns[-1] = output(gits[columns[2]], columns[-2], objects)
        print(*columns, sep="\t")


if __name__ == "__main__":
    main(*sys.argv[1:])
