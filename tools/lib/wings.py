"""The wings of the house: groups of crates that share a subject, and what a reader who is new finds by listing folders.

`rt ci` allows no folders between crates/ and a crate, so a prefix of the names groups the crates.
"""

import os
import re

# each wing: its title, and its crates, a name or a prefix that ends with `*`
WINGS = (
    ("Library", "gix_object gixobj_listings gixobj_records"),
    ("Foundations", "gixobj_hash gixobj_streams gixobj_encode gixobj_parse gixobj_actor gixobj_base"),
    (
        "Objects",
        "gixobj_text gixobj_grammar gixobj_tree gixobj_tree_* gixobj_tag gixobj_commit gixobj_tokens gixobj_object "
        "gixobj_codec",
    ),
    ("Fsck", "gixobj_fsck gixobj_fsck_*"),
    ("Walks", "gixobj_walks gixobj_walks_*"),
    ("Signatures", "gixobj_signature gixobj_signature_*"),
    ("Stores", "gixobj_store gixobj_store_*"),
    ("Editor", "gixobj_editor gixobj_editor_*"),
    ("Command line", "gixobj gixobj_cli_*"),
    ("Libraries for C", "gixobj_c gixobj_c_*"),
    ("Examples", "gixobj_examples_*"),
    ("Tests", "gixobj_tests_*"),
)
DOCUMENT = "docs/ARCHITECTURE.md"
BEGIN, END = "<!-- written by tools/house --write -->", "<!-- end -->"
# a row of the questions: the question, and a link to the file that answers it
QUESTION = re.compile(r"\| ([^|]*\?) \| \[[^]]*\]\(\.\./(crates/(\w+)/(?:src|specs)/([^)#]+))\) \|")
FEWEST_QUESTIONS = 20
LETTERS = 4


def is_in(name, patterns):
    """Whether a crate is one of these."""
    return any(name == it or it.endswith("*") and name.startswith(it[:-1]) for it in patterns.split())


def wing_of(name):
    """The titles of the wings that a crate is in."""
    return [title for title, patterns in WINGS if is_in(name, patterns)]


def by_wings(names):
    """The names in the order of their wings, each wing with its crates."""
    return [(title, [it for it in names if is_in(it, patterns)]) for title, patterns in WINGS]


def markdown(about):
    """The wings as a block of text, for crates with what each is about."""
    wide = max(map(len, about))
    lines = ["```text"]
    for title, names in by_wings(about):
        if names:
            lines += [title, *(f"  {it:{wide}}  {about[it]}" for it in names)]
    return "\n".join([*lines, "```", ""])


def words_of(text):
    return [it.lower() for it in re.findall(r"[A-Z]?[a-z]+|[A-Z]+(?![a-z])", text)]


def are_alike(word, other):
    """Whether two words are equal, or have the same first letters."""
    count = min(LETTERS, len(word), len(other))
    return word == other or count >= LETTERS - 1 and word[:count] == other[:count]


def is_said(question, name):
    """Whether the question has a word of the name, or one like it."""
    parts = [it for it in words_of(name) if it not in ("gixobj", "src", "specs", "rt", "antt")]
    return any(are_alike(part, it) for part in parts for it in words_of(question))


def unanswered(top, document):
    """What is wrong with the questions of the document: a missing file, or one that its question doesn't lead to."""
    found = QUESTION.findall(document)
    for question, path, crate, file in found:
        if not os.path.isfile(f"{top}/{path}"):
            yield f"{path}, the answer to `{question}`, is missing"
        elif not is_said(question, crate) or not is_said(question, file):
            yield f"no word of `{question}` leads to {path}"
    if len(found) < FEWEST_QUESTIONS:
        yield f"{DOCUMENT} has {len(found)} questions with an answer, fewer than {FEWEST_QUESTIONS}"


def between(document):
    """What the document has before, between and after the marks of the list, or None."""
    before, mark, rest = document.partition(f"{BEGIN}\n")
    listed, other, after = rest.partition(END)
    return (before + mark, listed, other + after) if mark and other else None


def faults(top, about):
    """What `tools/house --check` finds: crates without a wing, and what differs in the document."""
    for name in about:
        wings = wing_of(name)
        if len(wings) != 1:
            yield f"{name} is in {' and '.join(wings) if wings else 'no wing'}"
    with open(f"{top}/{DOCUMENT}", encoding="utf-8") as it:
        document = it.read()
    parts = between(document)
    if not parts or parts[1] != markdown(about):
        yield f"{DOCUMENT} has another list of crates: run tools/house --write"
    yield from unanswered(top, document)


def write(top, about):
    """Writes the list into the document."""
    path = f"{top}/{DOCUMENT}"
    with open(path, encoding="utf-8") as it:
        before, _, after = between(it.read())
    with open(path, "w", encoding="utf-8") as out:
        out.write(before + markdown(about) + after)
