"""The in-house words that names and comments avoid, and the search for them: `tools/house --vocabulary`.

Searched are the names and comments of src/, specs/ and proofs/, and the file names of mutants. A name is searched
component by component: `write_text` has the components `write` and `text`. A comment is searched without what is in
backticks. Both are searched without the idioms that are allowed. Strings and data/ aren't searched.
"""

import os
import re

# The in-house words, and what to say instead. These are searched in names and in comments.
WORDS = {
    "told tell tells telling": "prints, reports; of an iterator: yields",
    "behind": "after, the rest",
    "front fronts": "prefix, parent directories",
    "refuse refuses refused refusing refusal refusals": "fails with, returns an error; of input: rejects",
    "unasked": "not looked up",
    "sought seek seeks": "search, find, look up",
    "beside": "with, next to, except",
    "judge judges judged": "validate; of a report: evaluate",
    "planted": "mutant",
    "stands stood": "is at, is",
    "handed": "passed; of trees and ids: emitted",
    "assure assured": "ensure, ensured",
    "sift sifts sifted": "filter, filtered",
    "halves": "binary search",
    "cut cuts": "split; of bytes: truncated",
    "word words": "argument; of a line: token",
    "place places": "position, index; of an edit: location",
    "least": "minimum, at least",
    "few fewest": "at most, a bound",
    "greatest": "maximum",
    "growth growths": "allocation",
    "shut": "closed",
    "whole wholes": "entire, complete, unchanged",
    "put puts": "append, insert, write",
    "give": "return, yield",
    "ask asks asked": "call; in a store: look up",
    "hand hands handing": "pass, emit",
}

# Searched in names alone: git itself speaks of a text in prose.
WORDS_OF_NAMES = {
    "text texts": "encoding, bytes, input, content, line, message",
    "passed": "consumed; of an argument: its role",
    "went": "consumed, emitted",
    "placed": "is at, position",
}

# Searched in names, as consecutive components, and in comments.
PAIRS = {
    "own tree|own trees": "the written tree",
    "read back|reads back": "decodes; round trip",
    "write back|writes back|written back": "encodes, re-encodes identically",
    "so many": "the number, n",
}

# Searched in comments alone.
PHRASES = {
    "wrong body|wrong bodies": "mutant",
    "in front|in front of": "before",
    "exactly where": "if and only if",
    "by halves": "binary search",
    "takes memory": "allocates",
    "went past|goes past|go past": "consumed, consumes",
    "its like|its kin": "the name of what is meant",
    "goes out|went out|hands out": "is emitted, emits",
    "gives": "returns, yields",
}

# Idioms with one of these words, in comments or as consecutive components of a name, and why they are allowed.
IDIOMS = {
    "at least": "a bound, as `at most`",
    "in place|in its place|in their place": "usual for a change without a copy, and for a replacement",
    "in the first one's place": "usual for a replacement",
    "place of any entry": "`in place of`, over two lines",
    "decimal places": "digits after a point",
    "marker place|marker places": "of the definition `IsMarkerPlace`",
    "placed file|placed files": "of the definition `PlacedFile`",
}

# Names that have one of these words, and why they keep it.
ALLOWED = {
    "gixobj_text": "the crate's name",
    "Refused": "public: EditReply::Refused",
    "WriteRefused": "public: EditReply::WriteRefused",
    "AtRefused": "public: Reply::AtRefused",
    "RootRefused": "public: Reply::RootRefused",
    "Text": "public: Word::Text",
    "Word": "public: the arguments of a Call",
    "WordView": "the view of Word",
    "word_view": "the view of Word",
    "writes_back": "a clause of the kit's",
    "first_words": "a definition of the kit's, of SHA-1 and SHA-256",
}

# Names that are allowed in these crates alone, and why.
ALLOWED_IN = {
    "words": ("gixobj_signature_reports gixobj_signature gixobj_tests_signatures gixobj_tests_replay_messages", "public: Call::words"),
    "word": ("gixobj_signature_reports gixobj_signature", "the cases of Word, as definitions name them"),
}

# Tests and mutants of these names are due, so what begins with one of them keeps its name.
DUE = (
    "stale-subtree cursor-starts-empty failed-out refused-upsert-changes order-by-bare-name opens-every-tree "
    "continuation-lines silent-token-reader signed-data-newline parent-before-child size-one-short "
    "always-out-of-memory always-not-found eight-digit-mode first-marker null-upsert-keeps-file drops-unopened-tree "
    "reopens-unopened-tree extra-out-call leaf-takes-directory prefix-counted-unchanged cursor-empty-path "
    "invented-ids emptied-directory-stays"
).split()

# What is imported from another place than these is a name of the kit's libraries, which keeps its words.
OWN_ROOT = re.compile(r"gixobj(?:_\w+)?|gix_object(?:_\w+)?|crate|super|self")
USE = re.compile(r"^[ \t]*(?:pub )?(?:ghost )?use (?:Rattle\.)?(\w+)([^;{\n]*)(\{[^}]*\})?", re.M)
ALIAS = re.compile(r"\bas\s+(\S+?)(?=[,;}\s]|$)")
NAME = re.compile(r"[^\W\d][\w'-]*")
COMPONENT = re.compile(r"[A-Z]+(?![a-z])|[A-Z]?[a-z]+")
BACKTICKS = re.compile(r"`[^`]*`")

TOKEN = {
    ".rt": re.compile(
        r"(?P<comment>//[^\n]*)|(?P<string>\bb?r(#*)\".*?\"\3|\"(?:\\.|[^\"\\])*\"|'(?:\\.[^']*|[^'\\\n])')"
        rf"|(?P<name>{NAME.pattern})|(?P<line>\n)",
        re.S,
    ),
    ".antt": re.compile(
        rf"(?P<comment>(?<!\S)--[^\n]*)|(?P<string>\"(?:\\.|[^\"\\])*\")|(?P<name>{NAME.pattern})|(?P<line>\n)"
    ),
}


def by_form(table, separator):
    """What to say instead, by each form of a table's words."""
    return {form: instead for forms, instead in table.items() for form in forms.split(separator)}


def search_for(forms):
    """The search for these words and phrases, the longest first."""
    return re.compile(r"\b(" + "|".join(sorted(forms, key=len, reverse=True)) + r")\b", re.I)


IN_NAMES = {**by_form(WORDS, " "), **by_form(WORDS_OF_NAMES, " "), **by_form(PAIRS, "|")}
IN_COMMENTS = {**by_form(WORDS, " "), **by_form(PAIRS, "|"), **by_form(PHRASES, "|")}
NAMED, PROSE, IDIOM = search_for(IN_NAMES), search_for(IN_COMMENTS), search_for(by_form(IDIOMS, "|"))


class Finding:
    """An in-house word, and where it is."""

    def __init__(self, path, line, name, word, instead):
        self.path, self.line, self.name, self.word, self.instead = path, line, name, word, instead

    def __str__(self):
        return f"{self.path}:{self.line}: {self.name}: {self.word} -> {self.instead}"


def kit_names(source):
    """The names that a file imports from the kit's libraries."""
    names = set()
    for use in USE.finditer(source):
        if not OWN_ROOT.fullmatch(use[1]):
            names.update(NAME.findall(ALIAS.sub("", use[2] + (use[3] or ""))))
    return names


def is_due(name):
    return name.replace("_", "-").startswith(tuple(DUE))


def is_allowed(name, crate):
    """Whether a name keeps its word, everywhere or in this crate."""
    return name in ALLOWED or name in ALLOWED_IN and crate in ALLOWED_IN[name][0].split()


def words_of_name(name, kit, crate):
    """The in-house words of a name. The name of a proof, such as `returns-in-Refused`, consists of several names."""
    if is_due(name) or name in kit:
        return []
    parts = [it for it in name.split("-") if not is_allowed(it.rstrip("'"), crate) and it not in kit]
    components = "-".join(" ".join(COMPONENT.findall(it)).lower() for it in parts)
    return list(dict.fromkeys(NAMED.findall(IDIOM.sub("", components))))


def words_of_comment(comment):
    """The in-house words of a comment's prose."""
    return [it.lower() for it in PROSE.findall(IDIOM.sub("", BACKTICKS.sub("", comment)))]


def findings_of_source(path, source, crate):
    """The findings in a source file: each name once a line."""
    kit, line, found = kit_names(source), 1, {}
    for token in TOKEN[os.path.splitext(path)[1]].finditer(source):
        kind = token.lastgroup
        if kind == "name":
            for word in words_of_name(token[0], kit, crate):
                found[line, token[0], word] = Finding(path, line, token[0], word, IN_NAMES[word])
        elif kind == "comment":
            for at, word in enumerate(words_of_comment(token[0])):
                found[line, at, word] = Finding(path, line, "comment", word, IN_COMMENTS[word])
        line += token[0].count("\n")
    return list(found.values())


def findings_of_mutant(path, crate):
    """The findings in a mutant's name, whose hyphens are between words."""
    name = os.path.splitext(os.path.basename(path))[0]
    words = words_of_name(name.replace("-", "_"), (), crate)
    return [Finding(path, 1, name, word, IN_NAMES[word]) for word in words]


def findings_of(top, crate):
    """The findings in a crate: of its sources, definitions and proofs, and of the names of its mutants."""
    found = []
    own, mutants = f"crates/{crate}", f"mutants/{crate}"
    parts = ((f"{own}/src", ".rt"), (f"{own}/specs", ".antt"), (f"{own}/proofs", ".antt"), (f"{own}/must-fail", ".edit"))
    for folder, ending in (*parts, (mutants, ".edit")):
        for at, folders, names in os.walk(f"{top}/{folder}"):
            folders.sort()
            for name in sorted(it for it in names if it.endswith(ending)):
                path = os.path.relpath(f"{at}/{name}", top)
                if ending == ".edit":
                    found += findings_of_mutant(path, crate)
                else:
                    with open(f"{at}/{name}", encoding="utf-8") as it:
                        found += findings_of_source(path, it.read(), crate)
    return found


def print_counts(found):
    """Prints how many findings each crate has, by words."""
    wide = max(map(len, found))
    for crate, findings in found.items():
        counts = {}
        for it in findings:
            counts[it.word] = counts.get(it.word, 0) + 1
        by_number = sorted(counts.items(), key=lambda it: (-it[1], it[0]))
        if counts:
            print(f"{crate:{wide}} {len(findings):6}  {', '.join(f'{word} {number}' for word, number in by_number)}")


def check(top, crates, is_count, at_most):
    """Prints the findings in these crates, or only their counts; whether there are at most `at_most`."""
    found = {it: findings_of(top, it) for it in crates}
    if not is_count:
        for findings in found.values():
            for it in findings:
                print(it)
    print_counts(found)
    total = sum(map(len, found.values()))
    print(f"{total} in-house words in {len(found)} crates, at most {at_most} allowed")
    return total <= at_most
