#!/usr/bin/env python3
"""Makes a file of objects for `gixobj_bench`, always the same one: `python3 made_objects.py > FILE`.

It has 4,000 commits, 500 tags, 2,000 trees and 1,000 blobs, which follow from a fixed seed:

- Most commits have one parent. A quarter of them is signed, and two of five have trailers.
- Trees have about twenty entries, with names of about a dozen bytes.
- Blobs have random bytes, a few thousand on average.

The format of the file is that of `objects.py`. Ids are random too, and no objects have them.
"""

import random
import sys

RANDOM = random.Random(64)
SYLLABLES = "ba ce di fo gu la me ni po ru sa te vi wo xu ka je li mo nu".split()
ENDINGS = ["", "", ".c", ".h", ".rs", ".py", ".md", ".txt", ".json", ".html"]
TREE, BLOB, COMMIT, TAG = range(4)


def word():
    return "".join(RANDOM.choice(SYLLABLES) for _ in range(RANDOM.randint(1, 4)))


def words(count):
    return " ".join(word() for _ in range(count))


def hex_id():
    return RANDOM.randbytes(20).hex()


def person():
    name = f"{word().title()} {word().title()}"
    return f"{name} <{name.lower().replace(' ', '.')}@example.com>"


def actor():
    offset = f"{RANDOM.choice('+-')}{RANDOM.randint(0, 12):02}{RANDOM.choice(['00', '00', '30', '45'])}"
    return f"{person()} {RANDOM.randint(1_100_000_000, 1_790_000_000)} {offset}"


def signature():
    letters = "ABCDEFGHIJKLMNOPQRSTUVWXYZabcdefghijklmnopqrstuvwxyz0123456789+/"
    lines = ["".join(RANDOM.choices(letters, k=64)) for _ in range(12)]
    return ["-----BEGIN PGP SIGNATURE-----", "", *lines, "-----END PGP SIGNATURE-----"]


def message():
    paragraphs = [words(RANDOM.randint(3, 9))]
    for _ in range(RANDOM.randint(0, 3)):
        paragraphs.append("\n".join(words(9) for _ in range(RANDOM.randint(1, 5))))
    if RANDOM.random() < 0.4:
        names = RANDOM.choices(["Signed-off-by", "Reviewed-by", "Acked-by", "Co-authored-by"], k=RANDOM.randint(1, 3))
        paragraphs.append("\n".join(f"{name}: {person()}" for name in names))
    return "\n\n".join(paragraphs) + "\n"


def commit():
    lines = [f"tree {hex_id()}"]
    lines += [f"parent {hex_id()}" for _ in range(RANDOM.choice([0, 1, 1, 1, 1, 1, 1, 1, 2, 2]))]
    lines += [f"author {actor()}", f"committer {actor()}"]
    if RANDOM.random() < 0.25:
        lines.append("gpgsig " + "\n ".join(signature()))
    return ("\n".join(lines) + "\n\n" + message()).encode()


def tag():
    name = ".".join(str(RANDOM.randint(0, 40)) for _ in range(3))
    header = f"object {hex_id()}\ntype commit\ntag v{name}\ntagger {actor()}\n\n{words(6)}\n"
    return (header + ("\n".join(signature()) + "\n" if RANDOM.random() < 0.5 else "")).encode()


def tree():
    modes = {}
    for _ in range(min(int(RANDOM.expovariate(1 / 22)) + 1, 200)):
        directory = RANDOM.random() < 0.2
        name = "_".join(word() for _ in range(RANDOM.randint(1, 2))) + ("" if directory else RANDOM.choice(ENDINGS))
        modes[name] = "40000" if directory else RANDOM.choice(["100644"] * 9 + ["100755"])
    order = sorted(modes, key=lambda name: name + "/" * (modes[name] == "40000"))
    return b"".join(f"{modes[name]} {name}\0".encode() + RANDOM.randbytes(20) for name in order)


def blob():
    return RANDOM.randbytes(min(int(RANDOM.lognormvariate(7.5, 1.2)), 200_000))


def main():
    for kind, make, count in ((TREE, tree, 2_000), (BLOB, blob, 1_000), (COMMIT, commit, 4_000), (TAG, tag, 500)):
        for _ in range(count):
            content = make()
            sys.stdout.buffer.write(bytes([kind]) + len(content).to_bytes(8, "little") + content)


main()
