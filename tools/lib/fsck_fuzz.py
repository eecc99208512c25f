"""Changed objects, and git's messages about them beside those of `cinguepo.fsck`. `tools/fuzz --fsck` runs it.

The objects of a repository are in one pack, over which `git fsck` runs. No id occurs as that of two kinds of object,
at which git's parser stops. Objects that the parser rejects have no messages, and are counted.
"""

import hashlib
import itertools
import os
import random
import re
import subprocess
import zlib

BLOCK = 5000
KINDS = {"commit": 1, "tree": 2, "tag": 4}
LENGTHS = {"sha1": 20, "sha256": 32}
LINE = re.compile(rb"(error|warning) in (\w+) ([0-9a-f]+): (\w+):")
REJECTED = re.compile(rb"error: ([0-9a-f]{40,64}): object (?:corrupt or missing|could not be parsed)")
TYPES = {0o040000: 2, 0o160000: 3}

MODES = [b"100644", b"100644", b"100755", b"120000", b"40000", b"160000"]
ODD_MODES = [b"0100644", b"100664", b"100600", b"0", b"040000", b"140000", b"1100644", b"20000120000", b"777", b"8", b"", b"12345671"]
DOTS = [b".", b"..", b".git", b".GIT", b"git~1", b".git ", b".git. .", b".git:x", b".git\\x", b"a\\.git", b"x\\GIT~1"]
FILES = [b".gitmodules", b".gitattributes", b".gitignore", b".mailmap"]
SHORT = [b"gitmod~1", b"gi7eba~1", b"gitatt~4", b"gi7d29~2", b"gitign~3", b"gi250a~9", b"mailma~1", b"maba30~1", b"~1000000", b"gi~12345"]
IGNORED = [bytes([0xE2, 0x80, it]) for it in (0x8C, 0x8F, 0xAA, 0xAE)] + [b"\xe2\x81\xaa", b"\xe2\x81\xaf", b"\xef\xbb\xbf"]
BYTES = [b"/", b"\\", b".", b" ", b"~", b":", b"g", b"G", b"\xff", b"\xc2\x80", b"\xe2\x80", b"a", b"0", b"-", b"\n"]
# all names of up to five of these are tried
NAME_BYTES = [b".", b"g", b"I", b"t", b"~", b"1", b" ", b"\\", b"/", b":", b"\xe2\x80\x8c", b"\xff", b"a"]
ACTORS = [
    b"A U Thor <a@b> 1700000000 +0130", b"A <a> 0 +0000", b" <> 1 -0000", b"<a> 1 +0000", b"A<a> 1 +0000", b"A <a>1 +0000",
    b"A <a> 01 +0000", b"A <a> 9223372036854775808 +0000", b"A <a> 1 +000", b"A <a> 1 +00000", b"A <a> x +0000",
    b"A <a> -1 +0000", b"A <a> -0 +0000", b"A <a>  7 +0000", b"A <a> 18446744073709551616 +0000", b"A <a> 1  +0000",
    b"A <a", b"A a> 1 +0000", b"A", b"", b"A > <a> 1 +0000", b"A <a<b> 1 +0000", b"A <a> -18446744073709551615 +0000",
]
PARTS = [b"\n", b" ", b"<", b">", b"\0", b"0", b"+0000", b"author ", b"committer ", b"tagger ", b"parent ", b"tree ", b"\x0b", b"\t"]
NAMES = [b"v1", b"v1.0", b"a/b", b".a", b"a..b", b"a.lock", b"a b", b"", b"@{", b"a@{b", b"a/", b"-x", b"@", b"a\x7f", b"a\xff", b"a.", b"/a", b"a~1"]
TARGETS = [b"commit", b"commit", b"tree", b"blob", b"tag", b"Commit", b"", b"commits"]


class Draw:
    """Objects of a seed, with ids by one hash function."""

    def __init__(self, seed, digest):
        self.draw, self.length = random.Random(f"{seed} {digest}"), LENGTHS[digest]

    def id(self, kind):
        """A new id, of which the first byte is the kind."""
        return bytes([kind]) + self.draw.randbytes(self.length - 1)

    def entry_id(self, kind):
        """A new id, or rarely the null id of a file."""
        return bytes(self.length) if kind == 1 and self.is_one_in(60) else self.id(kind)

    def is_one_in(self, count):
        return self.draw.randrange(count) == 0

    def object(self):
        """A kind and a content, mostly with some changes."""
        kind = self.draw.choice(["tree", "tree", "commit", "tag"])
        if kind == "tree":
            return kind, self.tree()
        content = self.commit() if kind == "commit" else self.tag()
        for _ in range(self.draw.choice([0, 0, 1, 1, 2, 3])):
            content = self.changed(content)
        return kind, content

    def name(self):
        base = self.draw.choice([DOTS, FILES, SHORT, [b"a", b"b", b"a.b", b"a-b", b"ab", b"a0", b"A"], BYTES])
        name = self.draw.choice(base)
        for _ in range(self.draw.choice([0, 0, 0, 1, 1, 2])):
            at = self.draw.randrange(len(name) + 1)
            part = self.draw.choice(self.draw.choice([IGNORED, BYTES, BYTES, DOTS, FILES]))
            name = name[:at] + part + name[at + self.draw.randrange(2) :]
        return name if self.is_one_in(2) else bytes(it ^ 32 if chr(it).isalpha() and it < 128 and self.is_one_in(3) else it for it in name)

    def tree(self):
        """Entries, mostly sorted, some of them twice; rarely with another byte somewhere."""
        entries = [self.entry() for _ in range(self.draw.choice([0, 1, 1, 2, 3, 5, 12]))]
        if entries and self.is_one_in(4):
            mode, name = self.draw.choice(entries)
            entries.append((self.draw.choice([mode, b"40000", b"100644"]), name))
        if not self.is_one_in(4):
            entries.sort(key=lambda it: it[1] + (b"/" if it[0].endswith(b"40000") else b""))
        content = b"".join(b"%s %s\0%s" % (mode, name, self.entry_id(kind_of(mode))) for mode, name in entries)
        if content and self.is_one_in(20):
            at = self.draw.randrange(len(content))
            content = self.draw.choice([content[:at], content[:at] + bytes([self.draw.randrange(256)]) + content[at + 1 :]])
        return content

    def entry(self):
        return (self.draw.choice(ODD_MODES) if self.is_one_in(12) else self.draw.choice(MODES)), self.name() or b"x"

    def actor(self):
        return self.draw.choice(ACTORS) if self.is_one_in(4) else ACTORS[0]

    def commit(self):
        lines = [b"tree " + self.id(2).hex().encode()]
        lines += [b"parent " + self.id(3).hex().encode() for _ in range(self.draw.choice([0, 1, 1, 2]))]
        if self.is_one_in(30):
            return b"\n".join([*lines, b"parent " + self.draw.choice([b"zz\n", b"1\n", b"\n", b"g" * self.length + b"\n"])])
        lines += [b"author " + self.actor() for _ in range(self.draw.choice([1, 1, 1, 1, 0, 2, 3]))]
        lines += [b"committer " + self.actor()] if not self.is_one_in(12) else []
        lines += self.draw.choice([[], [], [b"encoding x"], [b"gpgsig a", b" b"]])
        return b"\n".join(lines) + self.draw.choice([b"\n\nhi\n", b"\n\nhi\n", b"\n", b"", b"\n\n", b"\n\na\0b"])

    def tag(self):
        lines = [b"object " + self.id(3).hex().encode(), b"type " + (self.draw.choice(TARGETS) if self.is_one_in(4) else b"commit")]
        lines += [b"tag " + (self.draw.choice(NAMES) if self.is_one_in(2) else b"v1")] if not self.is_one_in(20) else []
        lines += [b"tagger " + self.actor()] if not self.is_one_in(6) else []
        lines += self.draw.choice([[], [], [], [b"more x"]])
        return b"\n".join(lines) + self.draw.choice([b"\n\nhi\n", b"\n\nhi\n", b"\n", b"", b"\n\n", b"\n\na\0b"])

    def changed(self, content):
        """The bytes with one change, mostly after the first two lines, at which git's parser would reject them."""
        lines = content.split(b"\n")
        first = len(lines[0]) + len(lines[1]) + 2 if len(lines) > 2 and not self.is_one_in(6) else 0
        at = self.draw.randrange(first, len(content) + 1)
        end = min(at + self.draw.choice([1, 1, 2, 8, 20]), len(content))
        number = self.draw.randrange(6)
        if number == 0:
            return content[:at]
        if number == 1:
            return content[:at] + content[end:]
        if number == 2:
            return content[:end] + content[at:]
        if number < 5:
            return content[:at] + self.draw.choice(PARTS) + content[at:]
        return content[:at] + bytes([self.draw.randrange(256)]) + content[at + 1 :]


def kind_of(mode):
    """The kind of the object that an entry of this mode names, as a number."""
    digits = re.match(rb"[0-7]*", mode)[0] or b"0"
    return TYPES.get(int(digits, 8) & 0o170000, 1)


def has_kinds_apart(content, length):
    """Whether each id of a tree's entries is of the kind that its first byte states, or is that of a null file."""
    for mode, id in re.findall(rb"([0-7]+) [^\0]+\0(.{%d})" % length, content, re.DOTALL):
        if (id[0] or not any(id)) != kind_of(mode):
            return False
    return True


def names(length):
    """Trees of one entry, one for each name of up to five of the bytes, as a file and as a link."""
    for count in range(1, 6):
        for parts in itertools.product(NAME_BYTES, repeat=count):
            name = b"".join(parts)
            mode = b"120000" if name.lower().lstrip(b".").startswith((b"g", b"~", b"m")) else b"100644"
            yield "tree", b"%s %s\0%s" % (mode, name, hashlib.new("sha256", name).digest()[:length].replace(b"\0", b"\1"))


def pack(objects, digest):
    """A pack of the objects, none twice."""
    out = bytearray(b"PACK" + (2).to_bytes(4, "big") + len(objects).to_bytes(4, "big"))
    for kind, content in objects:
        size, byte = len(content) >> 4, KINDS[kind] << 4 | len(content) & 15
        while size:
            out.append(byte | 128)
            size, byte = size >> 7, size & 127
        out.append(byte)
        out += zlib.compress(content, 1)
    return bytes(out) + hashlib.new(digest, out).digest()


class Git:
    """A new repository for each block of objects."""

    def __init__(self, folder, digest):
        self.folder, self.digest = folder, digest
        own = {"GIT_CONFIG_GLOBAL": os.devnull, "GIT_CONFIG_NOSYSTEM": "1", "LC_ALL": "C"}
        self.environment = {"PATH": os.environ["PATH"], **own}
        self.run("init", "-q", f"--object-format={digest}", folder, at=os.path.dirname(folder))

    def run(self, *words, at=None, input=b""):
        command = ["git", "-C", at or self.folder, *words]
        return subprocess.run(command, input=input, env=self.environment, capture_output=True, check=False)

    def reports(self, objects, strict):
        """Git's messages about each object in order, and the objects that its parser rejects."""
        packs = f"{self.folder}/.git/objects/pack"
        if not os.listdir(packs):
            done = self.run("index-pack", "--stdin", input=pack(objects, self.digest))
            if done.returncode:
                raise SystemExit(f"fuzz: git index-pack: {done.stderr.decode(errors='replace')}")
        done = self.run("fsck", "--no-dangling", "--no-progress", *(["--strict"] if strict else []))
        found, rejected = {}, set()
        for line in done.stderr.splitlines():
            if it := LINE.match(line):
                found.setdefault(it[3].decode(), []).append((it[1].decode(), it[4].decode()))
            elif it := REJECTED.match(line):
                rejected.add(it[1].decode())
        return found, rejected

    def forget(self):
        packs = f"{self.folder}/.git/objects/pack"
        for it in os.listdir(packs):
            os.remove(f"{packs}/{it}")


def differs(kind, wanted, found):
    """Whether the messages differ. Of a tree that isn't sorted git may miss a name that comes twice."""
    reported = {it for _, it in wanted}
    if kind == "tree" and "treeNotSorted" in reported and "duplicateEntries" not in reported:
        found = [it for it in found if it[1] != "duplicateEntries"]
    return wanted != found


class Run:
    """A comparison, and its counts."""

    def __init__(self, fsck, out):
        self.fsck, self.out = fsck, out
        self.counts, self.compared, self.wrong = {}, 0, 0

    def count(self, what, number=1):
        self.counts[what] = self.counts.get(what, 0) + number

    def compare(self, git, digest, objects):
        """Compares git's messages about these objects with those of the library, at both levels."""
        made = {hashlib.new(digest, b"%s %d\0%s" % (it[0].encode(), len(it[1]), it[1])).hexdigest(): it for it in objects}
        for strict in (False, True):
            reports, rejected = git.reports(list(made.values()), strict)
            for id, (kind, content) in made.items():
                if id in rejected:
                    self.count(f"{kind}s that git's parser rejects")
                    continue
                wanted, found = reports.get(id, []), self.fsck(kind, content, digest, strict)
                self.compared += 1
                self.count(f"{kind}s with messages" if wanted else f"{kind}s without messages")
                for _, message in wanted:
                    self.count(message)
                if differs(kind, wanted, found):
                    self.wrong += 1
                    print(f"{kind} {digest} strict={strict} x{content.hex()}: {found}, git {wanted}", file=self.out, flush=True)
        git.forget()


def blocks(seed, digest, count):
    """The objects of the seed, or all short names if the seed is `names`, in blocks."""
    if seed == "names":
        made = names(LENGTHS[digest])
        while block := list(itertools.islice(made, BLOCK)):
            yield block
        return
    draw = Draw(seed, digest)
    while count > 0:
        block = [draw.object() for _ in range(min(BLOCK, count))]
        yield [it for it in block if it[0] != "tree" or has_kinds_apart(it[1], LENGTHS[digest])]
        count -= BLOCK
