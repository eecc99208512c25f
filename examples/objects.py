#!/usr/bin/env python3
"""Makes a file of objects for `gixobj_bench` from the output of `git cat-file --batch`.

`git cat-file --batch-all-objects --batch | python3 examples/objects.py > FILE`, in a repository whose ids are of SHA-1.
For each object the file has a byte for its kind, its length in eight bytes, little-endian, and its content. The kinds
are 0 for a tree, 1 for a blob, 2 for a commit and 3 for a tag.
"""

import sys

KINDS = {b"tree": 0, b"blob": 1, b"commit": 2, b"tag": 3}


def main():
    batch, out = sys.stdin.buffer, sys.stdout.buffer
    while header := batch.readline():
        _, kind, size = header.split()
        content = batch.read(int(size))
        batch.read(1)
        out.write(bytes([KINDS[kind]]) + len(content).to_bytes(8, "little") + content)


main()
