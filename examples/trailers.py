#!/usr/bin/env python3
"""Prints the table of git's trailers: `python3 examples/trailers.py`.

The table is crates/gixobj_tests_replay_messages/data/git-trailers.tsv. Each body is the input of `git interpret-trailers
--parse --no-divider` after a title and an empty line, since git takes the first paragraph of a message for its title.
BY_RULE has the bodies that this repository decodes differently on purpose. docs/DIFFERENCES.md has the reason.
"""

from recorded import escaped, run_git

HEADER = """\
# Trailers of bodies, by examples/trailers.py. Columns: name, source, 'trailers' with the body, answer. The answer has
# each trailer, or 'none'.
# git: the answer is that of `git interpret-trailers --parse --no-divider` (git 2.39.5). The body follows a title and an
# empty line.
# rule: the answer differs from git's on purpose (docs/DIFFERENCES.md)."""

SIGN = "Signed-off-by: A <a@b>\n"
PICKED = "(cherry picked from commit 1)\n"
NOTE = "not a trailer\n"

BODIES = {
    # ---- one trailer
    "plain": "foo: bar\n",
    "no-newline": "foo: bar",
    "no-space": "foo:bar\n",
    "spaces-before-colon": "foo :  bar\n",
    "tab-before-colon": "foo\t:bar\n",
    "spaces-and-tabs-before-colon": "foo \t \t: bar\n",
    "spaces-behind": "hello-foo: bar there   \n",
    "tabs-behind": "foo: bar\t\t\n",
    "no-value": "foo:\n",
    "spaces-alone": "foo:   \n",
    "colons": "foo: a: b: c\n",
    "two-colons": "foo:: bar\n",
    "digits": "123: 4\n",
    "dashes": "---: x\n",
    "dash-first": "-a: x\n",
    "one-letter": "A:1\n",
    "return": "foo: bar\r\n",
    "return-at-end": "foo: bar\r",
    "two-returns": "foo: bar\r\r\n",
    "url": "https://example.com/x\n",
    # ---- no trailer
    "empty": "",
    "newline": "\n",
    "no-token": ": bar\n",
    "no-colon": "foo bar\n",
    "two-words": "foo bar: baz\n",
    "word-behind-gap": "foo  bar : baz\n",
    "underscore": "foo_bar: baz\n",
    "dot": "foo.bar: baz\n",
    "equals": "foo=bar\n",
    "hash": "foo #1\n",
    "letter-of-two-bytes": "f\\xc3\\xbc: bar\n",
    "emoji": "\\xf0\\x9f\\xa4\\x97: \\xf0\\x9f\\x8e\\x89\n",
    "zero-byte-in-token": "fo\\x00o: bar\n",
    "indented": " foo: bar\n",
    "tab-indented": "\tfoo: bar\n",
    "cut-by-return": "foo\r: bar\n",
    # ---- several
    "two": "A: 1\nB: 2\n",
    "same-twice": "A: 1\nA: 1\n",
    "three-cases": "signed-off-by: a\nSIGNED-OFF-BY: b\nSigned-Off-By: c\n",
    "behind-text": "text\n\nA: 1\nB: 2\n",
    "behind-text-without-blank": "text\nA: 1\n",
    "behind-blank-of-spaces": "text\n  \t\nA: 1\n",
    "behind-many-blanks": "text\n\n\n\nA: 1\n",
    "blanks-behind": "text\n\nA: 1\n\n\n",
    "spaces-behind-block": "text\n\nA: 1\n \n\t\n",
    "text-behind": "text\n\nA: 1\n\nmore\n",
    "two-paragraphs": "A: 1\n\nB: 2\n",
    "returns": "text\r\n\r\nA: 1\r\nB: 2\r\n",
    "returns-alone": "text\r\n\r\nA: 1\rB: 2\r",
    # ---- lines that continue a value
    "folded": "foo: bar\n continued\n",
    "folded-by-tab": "foo: bar\n\tcontinued\n",
    "folded-twice": "foo: bar\n a\n  b\n",
    "folded-without-first": "foo:\n bar\n",
    "folded-then-other": "foo: bar\n a\nB: 2\n b\n",
    "folded-colon": "foo: bar\n B: 2\n",
    "folded-at-end": "foo: bar\n a",
    "folded-blank": "foo: bar\n \n a\n",
    "folded-first-of-block": "text\n\n a\nfoo: bar\n",
    "folded-behind-other": "Signed-off-by: a\nother\n more\nB: 2\n",
    "folded-spaces": "foo: bar \n  a \n",
    "folded-returns": "foo: bar\r\n a\r\n",
    "folded-without-value": "foo:\n  \tx\n",
    # ---- the rule of a quarter
    "sign-off-and-other": SIGN + NOTE,
    "other-and-sign-off": NOTE + SIGN,
    "trailer-quarter": "text\n\n" + SIGN + 3 * NOTE,
    "trailer-quarter-four": "text\n\n" + SIGN + 4 * NOTE,
    "quarter-before": "text\n\n" + 3 * NOTE + SIGN,
    "quarter-of-two": "text\n\n" + 6 * NOTE + SIGN + "A: 1\n",
    "quarter-of-two-and-one": "text\n\n" + 7 * NOTE + SIGN + "A: 1\n",
    "no-sign-off-and-other": "A: 1\nB: 2\nC: 3\nD: 4\nother\n",
    "sign-off-in-lower-case": "signed-off-by: A <a@b>\nother\n",
    "sign-off-without-space": "Signed-off-by:A <a@b>\nother\n",
    "sign-off-with-gap": "Signed-off-by : A <a@b>\nother\n",
    "picked": PICKED,
    "picked-and-other": PICKED + NOTE,
    "picked-and-others": PICKED + 3 * NOTE,
    "picked-and-four": PICKED + 4 * NOTE + "A: 1\n",
    "picked-and-trailer": PICKED + "A: 1\n",
    "picked-and-indented": PICKED + " more\nA: 1\n",
    "other-with-indented": "other\n one\n two\n" + SIGN,
    "others-with-indented": "other\n one\n two\n three\n" + SIGN,
    "indented-behind-trailer": "other\n" + SIGN + " one\n two\n three\n four\n",
    "revert": "This reverts commit 1.\n\n" + SIGN,
    "kernel": "text\n\nLink: https://example.com/r/1\nReviewed-by: B <b@c>\n[c@d: changed]\n" + SIGN,
    "comment-and-folded": "A: 1\n 2\n# note\n 3\n",
    # ---- decoded differently on purpose
    "form-feed-indents": "A: 1\n\\x0c2\n",
    "form-feed-is-blank": "text\n\\x0c\nA: 1\n",
    "comment-in-block": "A: 1\n# note\nB: 2\n",
    "comment-before-block": "# note\nA: 1\n",
    "wide-space-at-ends": "A: \\xc2\\xa01\\xe3\\x80\\x80\n",
}

# Bodies that git decodes differently, and their trailers here.
BY_RULE = {
    "form-feed-indents": ["A: 1 2"],
    "form-feed-is-blank": ["A: 1"],
    "comment-in-block": [],
    "comment-before-block": [],
    "wide-space-at-ends": ["A: 1"],
    "folded-spaces": ["foo: bar a"],
    "folded-returns": ["foo: bar a"],
}


def unescaped(body):
    """The bytes of a body, in which \\x with two digits is a byte."""
    parts = body.encode().split(b"\\x")
    return parts[0] + b"".join(bytes([int(part[:2], 16)]) + part[2:] for part in parts[1:])


def trailers_of(body):
    """The trailers that git prints, each on a line."""
    output = run_git("/", "interpret-trailers", "--parse", "--no-divider", input=b"title\n\n" + body)
    return output.split(b"\n")[:-1]


def row(name):
    """A row of the table."""
    body = unescaped(BODIES[name])
    trailers, source = trailers_of(body), "git"
    if name in BY_RULE:
        expected = [trailer.encode() for trailer in BY_RULE[name]]
        assert trailers != expected, name
        trailers, source = expected, "rule"
    columns = [f'trailer "{escaped(trailer)}"' for trailer in trailers] or ["none"]
    return "\t".join([name, source, "trailers " + escaped(body), *columns])


def main():
    print(HEADER, *map(row, BODIES), sep="\n")


if __name__ == "__main__":
    main()
