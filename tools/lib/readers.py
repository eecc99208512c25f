"""The readers that tools/beside compares: this project's library, pygit2, dulwich and git.

A reader's `decode` returns the parts of an object by their names, or raises an exception if it rejects the bytes. Its
`calls` are those whose time is measured.
"""

import hashlib
import os
import pathlib
import re
import subprocess
import sys
import tempfile

sys.path.insert(0, f"{os.path.dirname(os.path.dirname(os.path.dirname(os.path.abspath(__file__))))}/bindings/python")
KINDS = {"commit": 1, "tree": 2, "tag": 4}
BATCH, LONELY = 32, "lonely"


class Here:
    """The public module over the library."""

    def __init__(self):
        import cinguepo

        self.lib, self.has_encoder = cinguepo, "gixobj_c_reencode" in cinguepo.LIBRARIES
        self.version = "(`cinguepo`)" if self.has_encoder else "(`cinguepo`, without new encodings)"

    def decode(self, kind, data):
        if not self.lib.check(KINDS[kind], data):
            self.reject_parts(kind, data)
            raise self.lib.MalformedError(kind)
        try:
            found = getattr(self, kind)(data)
        except self.lib.MalformedError:
            disagree(kind, data)
        try:
            if self.has_encoder:
                found["new encoding"] = self.lib.reencode(KINDS[kind], data)
        except self.lib.NotEncodableError:
            found["new encoding"] = None
        return found

    def rejects(self, kind, data):
        return not self.lib.check(KINDS[kind], data)

    def reject_parts(self, kind, data):
        """Ends the run if the bytes are rejected as an object, and have all parts of one."""
        call = {"commit": self.lib.tokens, "tree": self.lib.entries, "tag": self.lib.tag_tokens}[kind]
        try:
            names = [it[0] for it in call(data)]
        except self.lib.MalformedError:
            return
        if kind == "tree" or "tag" in names or "message" in names:
            disagree(kind, data)

    def commit(self, data):
        found = {"parents": [], "actors": [], "times": [], "encoding": None}
        for name, *value in self.lib.tokens(data):
            if name == "parent":
                found["parents"].append(value[0].lower())
            elif name in ("author", "committer"):
                actor = self.lib.actor(value[0])
                found["actors"].append((actor.name, actor.email))
                found["times"].append(actor.time)
            elif name != "header":
                found[name] = value[0].lower() if name == "tree" else value[0]
        signature = self.lib.commit_signature(data)
        return found | {"signature": signature and signature[0].rstrip(b"\n")}

    def tree(self, data):
        return parts_of_tree((it.name, it.mode, it.id.hex()) for it in self.lib.entries(data))

    def tag(self, data):
        found = {"actor": None, "time": None, "message": None, "signature": None}
        for name, value in self.lib.tag_tokens(data):
            if name == "tagger":
                actor = value and self.lib.actor(value)
                found |= {"actor": (actor.name, actor.email), "time": actor.time} if actor else {}
            else:
                found[name] = value.lower() if name == "object" else value
        return found

    def calls(self, kind, data):
        return {"check": lambda: self.lib.check(KINDS[kind], data), "parts": lambda: getattr(self, kind)(data)}


class Pygit2:
    """libgit2, with a store in memory."""

    def __init__(self):
        import pygit2

        class Memory(pygit2.OdbBackend):
            def read_cb(self, oid):
                return held[str(oid)]

        # without it each lookup of an object after the first one is that of a cache
        pygit2.option(pygit2.GIT_OPT_ENABLE_CACHING, 0)
        self.version = f"{pygit2.__version__} with libgit2 {pygit2.LIBGIT2_VERSION}"
        self.held = held = {}
        self.folder, self.backend, store = tempfile.TemporaryDirectory(), Memory(), pygit2.Odb()
        self.repository = pygit2.init_repository(self.folder.name, bare=True)
        store.add_backend(self.backend, 1)
        self.repository.set_odb(store)

    def decode(self, kind, data):
        self.held[oid := id_of(kind, data)] = KINDS[kind], data
        try:
            return getattr(self, kind)(self.repository[oid])
        finally:
            del self.held[oid]

    def commit(self, found):
        actors, encoding, signature = (found.author, found.committer), found.message_encoding, found.gpg_signature[0]
        return {
            "tree": str(found.tree_id).encode(),
            "parents": [str(it).encode() for it in found.parent_ids],
            "actors": [(it.raw_name, it.raw_email) for it in actors],
            "times": [(it.time, it.offset * 60) for it in actors],
            "message": found.raw_message,
            "encoding": None if encoding is None else encoding.encode(),
            "signature": signature and signature.rstrip(b"\n"),
        }

    def tree(self, found):
        return parts_of_tree((it.raw_name, it.filemode, str(it.id)) for it in found)

    def tag(self, found):
        tagger = found.tagger
        return {
            "object": str(found.target).encode(),
            "tag": found.raw_name,
            "actor": tagger and (tagger.raw_name, tagger.raw_email),
            "time": tagger and (tagger.time, tagger.offset * 60),
        }

    def calls(self, kind, data):
        self.held[oid := id_of(kind, data)] = KINDS[kind], data
        return {"parts": lambda: getattr(self, kind)(self.repository[oid])}


class Dulwich:
    """dulwich, by its objects."""

    def __init__(self):
        import dulwich
        from dulwich.objects import ShaFile

        self.type, self.version = ShaFile, ".".join(map(str, dulwich.__version__))

    def rejects(self, kind, data):
        """Whether `check` rejects the object, by its own error or another one."""
        try:
            self.type.from_raw_string(KINDS[kind], data).check()
        except Exception:  # noqa: BLE001
            return True
        return False

    def decode(self, kind, data):
        return getattr(self, kind)(self.type.from_raw_string(KINDS[kind], data))

    def commit(self, found):
        times = (found.author_time, found.author_timezone), (found.commit_time, found.commit_timezone)
        signature = found.gpgsig
        return {
            "tree": found.tree and found.tree.lower(),
            "parents": [it.lower() for it in found.parents],
            "actors": [actor_of(found.author), actor_of(found.committer)],
            "times": [None if time is None else (time, offset) for time, offset in times],
            "message": found.message,
            "encoding": found.encoding,
            "signature": signature and signature.rstrip(b"\n"),
        }

    def tree(self, found):
        return parts_of_tree((it.path, it.mode, it.sha.decode()) for it in found.items())

    def tag(self, found):
        return {
            "object": found.object[1].lower(),
            "type": found.object[0].type_name,
            "tag": found.name,
            "actor": found.tagger and actor_of(found.tagger),
            "time": None if found.tag_time is None else (found.tag_time, found.tag_timezone),
            "message": found.message,
            "signature": found.signature,
        }

    def calls(self, kind, data):
        check = lambda: self.type.from_raw_string(KINDS[kind], data).check()  # noqa: E731
        return {"check": check, "parts": lambda: self.decode(kind, data)}


class Git:
    """git, in repositories of its own."""

    def __init__(self):
        self.place = tempfile.TemporaryDirectory()
        self.version = f"{self.run('version').stdout.decode().split()[2]} (`git hash-object`)"
        self.run("init", "-q", "--bare", ".")
        self.run("init", "-q", "--bare", LONELY)

    def run(self, *words, folder="", **options):
        folder = f"{self.place.name}/{folder}"
        return subprocess.run(["git", *words], cwd=folder, capture_output=True, check=False, **options)

    def accepts(self, kind, data):
        return self.run("hash-object", "-t", kind, "--stdin", input=data).returncode == 0

    def accepted(self, kind, inputs):
        """Whether each input is accepted. A batch ends at the first that isn't. It is tried again, alone, if the kind
        of an id that another object of the batch has contradicts it."""
        answers, names, size = [], [f"input{it}" for it in range(len(inputs))], BATCH
        for name, data in zip(names, inputs):
            with open(f"{self.place.name}/{name}", "wb") as it:
                it.write(data)
        while len(answers) < len(inputs):
            batch = names[len(answers) : len(answers) + size]
            done = self.run("hash-object", "-t", kind, "--stdin-paths", input="\n".join(batch).encode())
            answers += [True] * done.stdout.count(b"\n")
            is_again = size > 1 and b", not a " in done.stderr
            answers += [False] * (done.returncode != 0 and not is_again)
            size = 1 if is_again else BATCH
        return answers

    def reports(self, kind, data):
        """What `git fsck --strict` reports of an object that is alone in a repository."""
        oid, found = id_of(kind, data), []
        self.run("hash-object", "-t", kind, "-w", "--literally", "--stdin", folder=LONELY, input=data)
        done = self.run("fsck", "--strict", "--no-dangling", "--no-progress", folder=LONELY)
        pathlib.Path(f"{self.place.name}/{LONELY}/objects/{oid[:2]}/{oid[2:]}").unlink(missing_ok=True)
        for line in (done.stdout + done.stderr).decode(errors="replace").splitlines():
            if report := re.match(rf"(?:error|warning) in \w+ {oid}: (\w+):", line):
                found.append(report[1])
            elif re.match(rf"error: {oid}: object (could not be parsed|corrupt)", line):
                found.append("unreadable")
        return found


def disagree(kind, data):
    sys.exit(f"beside: two calls of the library disagree on a {kind}: {data}")


def id_of(kind, data):
    return hashlib.sha1(b"%s %d\0" % (kind.encode(), len(data)) + data).hexdigest()


def parts_of_tree(entries):
    """The number of entries, and of those with a name of their own the last: names, their order, modes and ids."""
    entries = list(entries)
    modes, ids = {name: f"{mode:o}" for name, mode, _ in entries}, {name: oid.encode() for name, _, oid in entries}
    return {"entries": len(entries), "names": sorted(modes), "order": list(modes), "modes": modes, "ids": ids}


def actor_of(line):
    """The name and the email of an actor, which dulwich returns as one: split at the first `<` and the last `>`."""
    name, _, rest = (line or b"").partition(b"<")
    return name[:-1] if name.endswith(b" ") else name, rest.rpartition(b">")[0]


def installed():
    """The readers that are installed, and why the others are left out."""
    found, left_out = {}, {}
    for name, reader in (("here", Here), ("pygit2", Pygit2), ("dulwich", Dulwich)):
        try:
            found[name] = reader()
        except (ImportError, OSError, AttributeError) as error:
            left_out[name] = error
    return found, left_out
