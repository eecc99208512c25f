#!/usr/bin/env python3
"""Makes the table of signed and verified objects, by gpg, gpgsm, ssh-keygen and git.

`python3 examples/signing.py FOLDER` makes throw-away keys and two repositories in a new folder, one for each object
format. It prints a table of the calls of the programs, their output, and the outcomes, which is
crates/gixobj_tests_replay_messages/data/programs.tsv. The programs get exactly the arguments that `sign` and `verify` pass to
a runner. The programs run in UTC, and times are in UTC.

The outcome of a report follows from gnupg, doc/DETAILS, and from ssh-keygen(1), `-Y verify`. Git calls the programs in
its own way, and must agree, or the script stops. `git verify-commit` or `git verify-tag` must accept each signed
object. Its verdict on each verified one must be the same under the same gpg.minTrustLevel. For a commit, git's `%G?`,
`%GT`, `%GS`, `%GK`, `%GF` and `%GP` must be the same too, except for what the head of the table names.
"""

import os
import re
import sys
import time
from dataclasses import dataclass, replace

from recorded import NO_SETTINGS, escaped
from signing_keys import LEVELS, Folder, Keys

HEADER = """\
# Commits and tags, signed and verified by gpg and gpgsm 2.2.40, by ssh-keygen of OpenSSH 9.2, and by git 2.39.5.
# examples/signing.py makes the rows. The keys are throw-away, and so are their times. The columns are:
# - name and source
# - 'sign' or 'verify', the kind of the object, that of its ids, the format, and for 'verify' the minimum trust level
# - the encoding of the object
# - the environment of the program
# - the program, and its arguments before the fixed ones
# - the signing key, or for 'verify' the file of allowed signers
# - the file of revoked keys
# - the time at which keys have to be valid
# - for each call five columns: the request, whether it succeeded, standard output, standard error, and the result file
# - the answer
# For 'sign' the answer is the signed object or the error. For 'verify' it has the status, the trust level, the signer,
# the key, both fingerprints, and whether the signature is valid. '-' is none.
# A request has the environment, the program and its arguments. @0 and @1 are files, and @time is a time in seconds with
# its offset. The contents of the files follow, then '<' and the input. '>' is before a file next to which the program
# writes the result file, of the same name with .sig.
# '%' is the folder of the keys. \\n is a newline, \\t a tab, \\0 a zero byte, and \\x with two digits another byte.
# git: `git verify-commit` or `git verify-tag` accepts the signed object. For 'verify' its verdict is the same under the
# same gpg.minTrustLevel, and so are `%G?`, `%GT`, `%GS`, `%GK`, `%GF` and `%GP` of a commit.
# verdict: git's verdict is the same, and the rest follows from the report. For a tag git 2.39.5 prints no more.
# verdict: if a signature can't be checked, or if there are several, git prints no signer and no fingerprint.
# verdict: for a bad signature of SSH git prints the trust level 'never'. Here it is 'Fully' if a principal was checked,
# else 'Undefined'.
# program: the program failed."""

MARKERS = ["PGP SIGNATURE", "PGP MESSAGE", "SIGNED MESSAGE", "SSH SIGNATURE"]
FIELDS = {"sha1": b"gpgsig", "sha256": b"gpgsig-sha256"}
STATUSES = {
    "GOODSIG": "Good",
    "BADSIG": "Bad",
    "ERRSIG": "Error",
    "EXPSIG": "Expired",
    "EXPKEYSIG": "ExpiredKey",
    "REVKEYSIG": "RevokedKey",
}
LETTERS = {
    "G": "Good",
    "U": "Good",
    "B": "Bad",
    "E": "Error",
    "X": "Expired",
    "Y": "ExpiredKey",
    "R": "RevokedKey",
    "N": "Unknown",
}


# ---- calls


@dataclass
class Program:
    """A program of a format, its first arguments, and its environment."""

    format: str
    arguments: list
    environment: dict


@dataclass
class Output:
    """The outputs of a program, and the result file that it wrote."""

    success: bool
    stdout: bytes
    stderr: bytes
    result: bytes | None = None


class Calls:
    """Makes calls, and records their requests and outputs."""

    def __init__(self, folder):
        self.folder, self.columns = folder, []

    def run(self, program, arguments, files, input, result=None):
        """Makes a call. `@0`, `@1` and `@time=..` are the paths of the files and the argument of a time."""
        paths = [self.folder.write(f"file{number}", content) for number, content in enumerate(files)]
        arguments = program.arguments + arguments
        ran = self.folder.run([argument_of(it, paths) for it in arguments], program.environment, input, check=False)
        output = Output(ran.returncode == 0, ran.stdout, ran.stderr)
        if result is not None and os.path.exists(paths[result] + ".sig"):
            output.result = self.folder.read(paths[result] + ".sig")
            os.remove(paths[result] + ".sig")
        request = [f"{name}={value}" for name, value in program.environment.items()] + arguments
        request += [f'@{number}="{escaped(content)}"' for number, content in enumerate(files)]
        request += [] if input is None else [f'<"{escaped(input)}"']
        request += [] if result is None else [f">@{result}"]
        self.columns += [" ".join(request), "ok" if output.success else "failed"]
        self.columns += [escaped(output.stdout), escaped(output.stderr)]
        self.columns += ["-" if output.result is None else escaped(output.result)]
        return output


def argument_of(argument, paths):
    """The argument that a program gets: the path in place of `@0` or `@1`, the option in place of `@time=..`."""
    if argument.startswith("@time="):
        seconds = int(argument.removeprefix("@time=").split(",")[0])
        return time.strftime("-Overify-time=%Y%m%d%H%M%S", time.gmtime(seconds))
    return paths[int(argument[1:])] if argument.startswith("@") else argument


# ---- signing


class SignError(Exception):
    """The error if a program fails."""


def make_signature(calls, program, key, payload):
    """Signs these bytes by one call."""
    if program.format != "Ssh":
        output = calls.run(program, ["--status-fd=2", "-bsau", key], [], payload)
        signature, lines = output.stdout, output.stderr.split(b"\n")
        is_confirmed = any(it.startswith(b"[GNUPG:] SIG_CREATED ") for it in lines)
        missing = None if is_confirmed else "MissingSignatureConfirmation"
    else:
        arguments = ["-Y", "sign", "-n", "git", "-f"]
        if key.startswith(("key::", "ssh-")):
            files = [key.removeprefix("key::").encode(), payload]
            output = calls.run(program, [*arguments, "@0", "-U", "@1"], files, None, 1)
        else:
            output = calls.run(program, [*arguments, key, "@0"], [payload], None, 0)
        signature = output.result
        missing = "MissingSshSignature" if signature is None else None
    if not output.success or missing:
        raise SignError(missing if output.success else f"Failed {program.arguments[0]} {escaped(output.stderr)}")
    return signature


def split_signature(kind, ids, content):
    """The signed bytes of an object, and its signature (gitformat-signature).

    The signed bytes of a commit are all except the headers of that name. Those of a tag are the bytes before the last
    marker at the start of a line. A tag without a signature gets a newline at the end."""
    if kind == "commit":
        header = rb"^%s (.*\n(?: .*\n)*)" % FIELDS[ids]
        head, message = content.split(b"\n\n", 1)
        value = re.search(header, head + b"\n", flags=re.M)
        payload = re.sub(header, b"", head + b"\n", flags=re.M) + b"\n" + message
        return payload, value and value[1].replace(b"\n ", b"\n")
    markers = "|".join(f"^-----BEGIN {marker}-----" for marker in MARKERS).encode()
    starts = [it.start() for it in re.finditer(markers, content, flags=re.M)]
    return (content[: starts[-1]], content[starts[-1] :]) if starts else (content + b"\n", None)


def sign(calls, program, key, kind, ids, content):
    """The object with a new signature, in the last header of a commit or at the end of a tag (gitformat-signature)."""
    payload, _ = split_signature(kind, ids, content)
    signature = make_signature(calls, program, key, payload)
    if kind == "tag":
        return payload + signature
    head, message = payload.split(b"\n\n", 1)
    folded = signature.removesuffix(b"\n").replace(b"\n", b"\n ")
    return head + b"\n" + FIELDS[ids] + b" " + folded + b"\n\n" + message


# ---- verifying


@dataclass
class Verifier:
    """The program and the minimum trust level. For SSH also the files of allowed signers and revoked keys, and the
    offset of the time."""

    program: Program
    minimum: str = "Undefined"
    allowed: str = "-"
    revoked: str = "-"
    offset: int = 0


@dataclass
class Outcome:
    """The outcome of verifying."""

    status: str = "Unknown"
    trust: str = "Undefined"
    signer: bytes = b""
    key: bytes = b""
    fingerprint: bytes = b""
    primary: bytes = b""
    valid: bool = False

    def __str__(self):
        columns = [escaped(it) or "-" for it in (self.signer, self.key, self.fingerprint, self.primary)]
        return " | ".join([self.status, self.trust, *columns, "valid" if self.valid else "not valid"])


def verify_gpg(calls, verifier, payload, signature):
    program = verifier.program
    if program.format == "OpenPgp":
        arguments = ["--keyid-format=long", "--status-fd=1", "--verify", "@0", "-"]
        output = calls.run(program, arguments, [signature], payload)
    else:
        output = calls.run(program, ["--status-fd=1", "--verify", "@0", "@1"], [signature, payload], None)
    return evaluate(gpg_outcome(output.stdout), output.success, verifier)


def gpg_outcome(report):
    """The outcome of a report of gpg or gpgsm (gnupg, doc/DETAILS). If it is of several signatures, none is good."""
    outcome = Outcome()
    lines = [line.removeprefix(b"[GNUPG:] ") for line in report.split(b"\n") if line.startswith(b"[GNUPG:] ")]
    verdicts = [line for line in lines if line.split(b" ")[0].decode() in STATUSES]
    if len(verdicts) == 1:
        keyword, outcome.key, outcome.signer = verdicts[0].split(b" ", 2)
        outcome.status = STATUSES[keyword.decode()]
    elif verdicts:
        outcome.status = "Error"
    for line in lines:
        if line.startswith(b"TRUST_"):
            outcome.trust = line.removeprefix(b"TRUST_").split(b" ")[0].decode().capitalize()
        if line.startswith(b"VALIDSIG "):
            outcome.fingerprint, *more = line.split(b" ")[1:]
            outcome.primary = more[8] if len(more) > 8 else b""
    return outcome


def verify_ssh(calls, verifier, payload, signature):
    """A call for the principals of the key, and one for each up to the first that is accepted, or one for any key."""
    program = replace(verifier.program, environment=verifier.program.environment | {"LANG": "C", "LC_ALL": "C"})
    fixed, allowed = ["-s", "@0", f"@time=1700000001,{verifier.offset}"], ["-f", verifier.allowed]
    revoked = [] if verifier.revoked == "-" else ["-r", verifier.revoked]
    output = calls.run(program, ["-Y", "find-principals", *allowed, *fixed], [signature], b"")
    principals = output.stdout.decode().split() if output.success else []
    for principal in principals:
        arguments = ["-Y", "verify", "-n", "git", *allowed, "-I", principal, *fixed, *revoked]
        output = calls.run(program, arguments, [signature], payload)
        if output.success and output.stdout.startswith(b"Good"):
            return evaluate(ssh_outcome(output, principal.encode(), "Fully"), True, verifier)
    if principals:
        return evaluate(ssh_outcome(output, b"", "Fully"), output.success, verifier)
    output = calls.run(program, ["-Y", "check-novalidate", "-n", "git", *fixed], [signature], payload)
    return evaluate(ssh_outcome(output, b"", "Undefined"), False, verifier)


def ssh_outcome(output, signer, trust):
    """The outcome of the output of ssh-keygen for a signature in git's namespace."""
    report = output.stdout + output.stderr
    status = "Good" if report.startswith(b'Good "git" signature') else "Bad"
    _, separator, key = report.split(b"\n")[0].rpartition(b" key ")
    key = key if separator else b""
    return Outcome(status, trust, signer, key, key)


def evaluate(outcome, success, verifier):
    """The outcome, which is valid if the program succeeded, the signature is good, and its trust level suffices."""
    is_trusted = LEVELS.index(outcome.trust) >= LEVELS.index(verifier.minimum)
    return replace(outcome, valid=success and outcome.status == "Good" and is_trusted)


# ---- git


class Git:
    """A new repository with ids of one kind."""

    def __init__(self, folder, ids):
        self.folder, self.path = folder, folder.at(ids)
        folder.run(["git", "init", "-q", f"--object-format={ids}", self.path], NO_SETTINGS)
        self.tree = self.write_object("tree", b"")

    def write_object(self, kind, content):
        """Writes an object. Returns its id."""
        command = ["git", "-C", self.path, "hash-object", "-t", kind, "-w", "--stdin"]
        return self.folder.run(command, NO_SETTINGS, content).stdout.decode().strip()

    def run(self, verifier, *arguments):
        """Runs git with a verifier, through a program that inserts the verifier's arguments first."""
        script = f'#!/bin/sh\nexec {" ".join(verifier.program.arguments)} "$@"\n'
        program = self.folder.write("program", script, 0o700)
        name = {"OpenPgp": "gpg.program", "X509": "gpg.x509.program", "Ssh": "gpg.ssh.program"}[verifier.program.format]
        settings = {name: program, "gpg.minTrustLevel": verifier.minimum}
        settings |= {} if verifier.allowed == "-" else {"gpg.ssh.allowedSignersFile": verifier.allowed}
        settings |= {} if verifier.revoked == "-" else {"gpg.ssh.revocationFile": verifier.revoked}
        options = [argument for it in settings for argument in ("-c", f"{it}={settings[it]}")]
        environment = NO_SETTINGS | verifier.program.environment
        return self.folder.run(["git", "-C", self.path, *options, *arguments], environment, check=False)

    def accepts(self, verifier, kind, id):
        return self.run(verifier, f"verify-{kind}", id).returncode == 0

    def outcome_of(self, verifier, id):
        """Git's outcome for a commit's signature. Git prints nothing for `%GT` if no trust level was reported."""
        form = "--format=%G?%n%GS%n%GK%n%GF%n%GP"
        letter, *fields = self.run(verifier, "log", "-1", form, id).stdout.split(b"\n")[:5]
        trust = self.run(verifier, "log", "-1", "--format=%GT", id).stdout.strip() or b"undefined"
        outcome = Outcome(LETTERS[letter.decode()], trust.decode().capitalize(), *fields)
        outcome.valid = self.accepts(verifier, "commit", id)
        return replace(outcome, fingerprint=outcome.key) if verifier.program.format == "Ssh" else outcome


def without_differences(of_git, outcome, format):
    """Git's outcome, without the differences that the head of the table names."""
    if outcome.status == "Error":
        of_git = replace(of_git, trust=outcome.trust, signer=outcome.signer)
        return replace(of_git, fingerprint=outcome.fingerprint, primary=outcome.primary)
    return replace(of_git, trust=outcome.trust) if format == "Ssh" and outcome.status == "Bad" else of_git


# ---- rows


class Table:
    """The rows, and the repositories and keys for them."""

    def __init__(self, folder):
        self.folder, self.keys, self.rows = folder, Keys(folder), []
        self.gits = {ids: Git(folder, ids) for ids in ["sha1", "sha256"]}
        self.gpg = Verifier(Program("OpenPgp", ["gpg"], self.keys.home))
        self.gpgsm = Verifier(Program("X509", ["gpgsm"], self.keys.home))
        self.ssh = Verifier(Program("Ssh", ["ssh-keygen"], {}), allowed=folder.at("allowed"))

    def add_row(self, name, source, task, content, program, options, calls, answer):
        environment = " ".join(f"{name}={value}" for name, value in program.environment.items())
        columns = [name, source, task, escaped(content), environment, " ".join(program.arguments)]
        columns += [*options, *calls.columns, answer]
        self.rows.append("\t".join(columns).replace(self.folder.path, "%"))

    def sign(self, name, program, key, verifier, content, kind="commit", ids="sha1"):
        """Adds the row of a signed object, which git must accept with this verifier. Then verifies it."""
        calls = Calls(self.folder)
        signed = sign(calls, program, key, kind, ids, content)
        assert self.gits[ids].accepts(verifier, kind, self.gits[ids].write_object(kind, signed)), name
        task = f"sign {kind} {ids} {program.format}"
        self.add_row(name, "git", task, content, program, [key, "-", "-"], calls, f"ok {escaped(signed)}")
        self.verify(f"{name}-verified", verifier, signed, kind, ids)

    def fail_to_sign(self, name, program, key):
        """Adds the row of a program that fails to sign."""
        calls, content = Calls(self.folder), make_commit(self.gits["sha1"])
        try:
            sign(calls, program, key, "commit", "sha1", content)
            raise AssertionError(name)
        except SignError as error:
            task = f"sign commit sha1 {program.format}"
            self.add_row(name, "program", task, content, program, [key, "-", "-"], calls, f"err {error}")

    def signed_object(self, program, key, kind="commit", arguments=(), **parts):
        """A signed object without a row. The program gets these arguments too."""
        content = (make_commit if kind == "commit" else make_tag)(self.gits["sha1"], **parts)
        program = replace(program, arguments=program.arguments + list(arguments))
        return sign(Calls(self.folder), program, key, kind, "sha1", content)

    def verify(self, name, verifier, content, kind="commit", ids="sha1"):
        """Adds the row of a verified object. Git must agree."""
        calls, git, program = Calls(self.folder), self.gits[ids], verifier.program
        verify = verify_ssh if program.format == "Ssh" else verify_gpg
        outcome = verify(calls, verifier, *split_signature(kind, ids, content))
        id = git.write_object(kind, content)
        assert git.accepts(verifier, kind, id) == outcome.valid, name
        of_git = git.outcome_of(verifier, id) if kind == "commit" else None
        agrees = of_git is None or without_differences(of_git, outcome, program.format) == outcome
        assert agrees, f"{name}: {of_git} {outcome}"
        task = f"verify {kind} {ids} {program.format} {verifier.minimum}"
        options = [verifier.allowed, verifier.revoked, f"1700000001 {encode_offset(verifier.offset)}"]
        source = "git" if of_git == outcome else "verdict"
        self.add_row(name, source, task, content, program, options, calls, str(outcome))


def encode_offset(offset):
    return f"{'-' if offset < 0 else '+'}{abs(offset) // 3600:02}{abs(offset) // 60 % 60:02}"


def make_commit(git, headers=b"", message=b"Say hello\n", offset=0):
    author = "author A U Thor <a@example.com> 1700000000 +0100"
    committer = f"committer C O Mitter <c@example.com> 1700000001 {encode_offset(offset)}"
    return f"tree {git.tree}\n{author}\n{committer}\n".encode() + headers + b"\n" + message


def make_tag(git, body=b"\nThe first one\n"):
    tagger = "tagger C O Mitter <c@example.com> 1700000001 +0000"
    return f"object {git.tree}\ntype tree\ntag v1.0\n{tagger}\n".encode() + body


def add_signed(table, ids):
    """Commits and tags signed by each program."""
    git, keys, suffix = table.gits[ids], table.keys, "" if ids == "sha1" else "-sha256"
    with_agent = replace(table.ssh.program, environment=keys.with_agent)
    signers = [
        ("gpg", table.gpg.program, keys.gpg["Ultimate"], table.gpg),
        ("gpgsm", table.gpgsm.program, keys.gpgsm, table.gpgsm),
        ("ssh", table.ssh.program, table.folder.at("author"), table.ssh),
        ("ssh-literal", with_agent, "key::" + keys.ssh[0], table.ssh),
    ]
    for name, program, key, verifier in signers[: 4 if ids == "sha1" else 1]:
        table.sign(f"commit-by-{name}{suffix}", program, key, verifier, make_commit(git), "commit", ids)
        table.sign(f"tag-by-{name}{suffix}", program, key, verifier, make_tag(git), "tag", ids)


def add_odd(table):
    """Other arguments, keys and messages, and objects that are already signed."""
    git, keys, gpg = table.gits["sha1"], table.keys, table.gpg.program
    with_agent = replace(table.ssh.program, environment=keys.with_agent)
    stronger = replace(gpg, arguments=["gpg", "--digest-algo=SHA512"])
    table.sign("commit-by-key-below", stronger, keys.gpg["Below"], table.gpg, make_commit(git))
    table.sign("commit-by-ssh-bare-literal", with_agent, keys.ssh[0], table.ssh, make_commit(git))
    old = b"gpgsig -----BEGIN PGP SIGNATURE-----\n \n iQEz\n -----END PGP SIGNATURE-----\n"
    merged = b"mergetag " + make_tag(git).removesuffix(b"\n").replace(b"\n", b"\n ") + b"\n"
    for name, kind, content in [
        ("without-newline", "commit", make_commit(git, message=b"Say hello")),
        ("without-message", "commit", make_commit(git, message=b"")),
        ("with-headers", "commit", make_commit(git, b"encoding latin-1\n" + merged + b"x \n", b"caf\xe9\r\n\r\n")),
        ("signed-anew", "commit", make_commit(git, old + merged + old)),
        ("without-newline", "tag", make_tag(git, b"\nThe first one")),
        ("of-newlines", "tag", make_tag(git, b"\n\n")),
        ("without-body", "tag", make_tag(git, b"")),
        ("signed-anew", "tag", make_tag(git, b"\ntitle\n\nbody\n-----BEGIN SSH SIGNATURE-----\nU1NI\n")),
    ]:
        table.sign(f"{kind}-{name}", gpg, keys.gpg["Ultimate"], table.gpg, content, kind)
    table.fail_to_sign("gpg-without-key", gpg, "0" * 40)
    table.fail_to_sign("gpgsm-without-key", table.gpgsm.program, "0" * 40)
    table.fail_to_sign("ssh-without-file", table.ssh.program, table.folder.at("missing"))
    table.fail_to_sign("ssh-literal-without-agent", table.ssh.program, "key::" + keys.ssh[0])
    table.fail_to_sign("ssh-literal-unknown-to-agent", with_agent, "key::" + keys.ssh[1])


def add_gpg(table):
    """Keys of each trust level, and signatures that are bad, expired, or of missing, expired and revoked keys."""
    keys, gpg = table.keys, table.gpg
    without_keys = replace(gpg, program=replace(gpg.program, environment=keys.nothing))

    def signed(name, *arguments, **parts):
        arguments = ["--faked-system-time=20200102T000000", *arguments]
        return table.signed_object(gpg.program, keys.gpg[name], arguments=arguments, **parts)

    for number, level in enumerate(LEVELS):
        commit = signed(level)
        for minimum in LEVELS[number : number + 2]:
            table.verify(f"{level}-at-least-{minimum}".lower(), replace(gpg, minimum=minimum), commit)
    good, revoked = signed("Fully"), signed("Revoked")
    keys.revoke()
    for name, verifier, commit in [
        ("expired", gpg, signed("Fully", "--default-sig-expire=1d")),
        ("expired-key", gpg, signed("Expired")),
        ("revoked-key", gpg, revoked),
        ("unknown-key", without_keys, good),
        ("damaged", gpg, good.replace(b"hello", b"hullo")),
        ("damaged-signature", gpg, good.replace(b"\n i", b"\n j")),
        ("trust-not-told", replace(gpg, program=replace(gpg.program, arguments=["gpg", "--trust-model=always"])), good),
        ("two-signatures", gpg, signed("Fully", "-u", keys.gpg["Ultimate"])),
    ]:
        table.verify(f"gpg-{name}", verifier, commit)
    tag = signed("Marginal", kind="tag")
    table.verify("gpg-tag-at-least-fully", replace(gpg, minimum="Fully"), tag, "tag")
    table.verify("gpg-tag-unknown-key", without_keys, tag, "tag")
    table.verify("gpg-tag-damaged", gpg, tag.replace(b"first", b"last"), "tag")


def add_gpgsm(table):
    """A certificate that is trusted, expired, missing, or untrusted."""
    keys, gpgsm = table.keys, table.gpgsm
    later = replace(gpgsm.program, arguments=["gpgsm", "--faked-system-time=21000101T000000"])
    without_keys = replace(gpgsm, program=replace(gpgsm.program, environment=keys.nothing))
    good, tag = [table.signed_object(gpgsm.program, keys.gpgsm, kind) for kind in ["commit", "tag"]]
    with_chain = table.signed_object(gpgsm.program, keys.gpgsm, arguments=["--include-certs=-1"])
    for name, verifier, commit in [
        ("at-least-fully", replace(gpgsm, minimum="Fully"), good),
        ("at-least-ultimate", replace(gpgsm, minimum="Ultimate"), good),
        ("damaged", gpgsm, good.replace(b"hello", b"hullo")),
        ("expired-key", replace(gpgsm, program=later), good),
        ("unknown-key", without_keys, good),
        ("untrusted-key", without_keys, with_chain),
    ]:
        table.verify(f"gpgsm-{name}", verifier, commit)
    table.verify("gpgsm-tag-damaged", gpgsm, tag.replace(b"first", b"last"), "tag")


def add_ssh(table):
    """Keys that are allowed, unknown, allowed before or after a time, and revoked."""
    at, ssh = table.folder.at, table.ssh
    parts = [{}, {"offset": -27000}, {"kind": "tag"}]
    good, in_west, tag = [table.signed_object(ssh.program, at("author"), **it) for it in parts]
    for name, verifier, commit in [
        ("at-least-fully", replace(ssh, minimum="Fully"), good),
        ("at-least-ultimate", replace(ssh, minimum="Ultimate"), good),
        ("second-principal", replace(ssh, allowed=at("allowed-second")), good),
        ("no-principal", replace(ssh, allowed=at("allowed-none")), good),
        ("unknown-key", replace(ssh, allowed=at("allowed-other")), good),
        ("no-file", replace(ssh, allowed=at("missing")), good),
        ("no-longer", replace(ssh, allowed=at("allowed-before")), good),
        ("already", replace(ssh, allowed=at("allowed-after")), good),
        ("already-in-the-west", replace(ssh, allowed=at("allowed-after"), offset=-27000), in_west),
        ("revoked-key", replace(ssh, revoked=at("revoked")), good),
        ("another-revoked-key", replace(ssh, revoked=at("other.pub")), good),
        ("damaged", ssh, good.replace(b"hello", b"hullo")),
        ("damaged-signature", ssh, good.replace(b"\n U1NI", b"\n U2NI")),
    ]:
        table.verify(f"ssh-{name}", verifier, commit)
    table.verify("ssh-tag-unknown-key", replace(ssh, allowed=at("allowed-other")), tag, "tag")
    table.verify("ssh-tag-damaged", ssh, tag.replace(b"first", b"last"), "tag")


def main(path):
    table = Table(Folder(path))
    try:
        add_signed(table, "sha1")
        add_signed(table, "sha256")
        add_odd(table)
        add_gpg(table)
        add_gpgsm(table)
        add_ssh(table)
    finally:
        table.keys.close()
    print(HEADER, *table.rows, sep="\n")


if __name__ == "__main__":
    main(sys.argv[1])
