"""Commands of the module.

  python -m cinguepo audit [--strict] REPOSITORY..  checks each object, next to git fsck
  python -m cinguepo show REPOSITORY OBJECT         prints the parts of a commit or a tree
  python -m cinguepo trailers REPOSITORY COMMIT     prints the trailers of a commit's message

An audit prints git's messages about objects as `git fsck` does; with --strict, as `git fsck --strict`. It needs the
static library gixobj_c_fsck for them, and gixobj_c_reencode to compare encodings. It says which is missing; without
gixobj_c_fsck --strict fails.

The status of audit is 0 if git lists and reads all objects of each repository, none has a fault, and none has a message
for which git rejects it. Otherwise it is 1.
"""
import subprocess
import sys

from . import Error, Hash, entries, tokens, trailers
from .audit import audit


def git(folder: str, *words: str) -> bytes:
    done = subprocess.run(["git", "-C", folder, *words], capture_output=True, check=False)
    if done.returncode:
        raise SystemExit(done.stderr.decode(errors="replace").strip())
    return done.stdout


def print_bytes(*parts: bytes) -> None:
    sys.stdout.buffer.write(b" ".join(parts) + b"\n")


def show(folder: str, name: str, only_trailers: bool) -> None:
    oid = git(folder, "rev-parse", "--verify", name).decode().strip()
    kind = "commit" if only_trailers else git(folder, "cat-file", "-t", oid).decode().strip()
    data, hash = git(folder, "cat-file", kind, oid), Hash.SHA1 if len(oid) == 40 else Hash.SHA256
    if kind == "tree":
        for entry in entries(data, hash):
            print_bytes(b"%06o" % entry.mode, entry.id.hex().encode(), entry.name)
    elif kind != "commit":
        raise SystemExit(f"{kind}: only commits and trees are shown")
    else:
        for token in tokens(data, hash):
            if not only_trailers:
                print_bytes(token[0].encode(), *token[1:])
            elif token[0] == "message":
                for name_of_trailer, value in trailers(token[1]):
                    print_bytes(name_of_trailer + b":", value)


def main(arguments: list[str]) -> int:
    if arguments in (["-h"], ["--help"]):
        print(__doc__.strip())
        return 0
    command, *words = arguments or [""]
    strict = words[:1] == ["--strict"]
    folders = words[strict:]
    if command == "audit" and folders:
        return max([audit(folder, strict) for folder in folders])
    if command in ("show", "trailers") and len(words) == 2:
        show(*words, only_trailers=command == "trailers")
        return 0
    print(__doc__.strip(), file=sys.stderr)
    return 2


try:
    sys.exit(main(sys.argv[1:]))
except Error as error:
    sys.exit(f"cinguepo: {error}")
