"""Throw-away keys for gpg, gpgsm and ssh-keygen, in a new folder: signing.py makes signatures with them."""

import os
import re
import subprocess
import time

LEVELS = ["Undefined", "Never", "Marginal", "Fully", "Ultimate"]


class Folder:
    """A new folder, in which programs run without access to the user's own keys."""

    def __init__(self, path):
        self.path = os.path.abspath(path)
        os.makedirs(self.path)

    def at(self, name):
        return os.path.join(self.path, name)

    def write(self, name, content, mode=0o600):
        with open(os.open(self.at(name), os.O_CREAT | os.O_WRONLY | os.O_TRUNC, mode), "wb") as file:
            file.write(content if isinstance(content, bytes) else content.encode())
        return self.at(name)

    def read(self, name):
        with open(self.at(name), "rb") as file:
            return file.read()

    def run(self, command, environment=None, input=b"", check=True):
        """Runs a program with this input, or without any if it is None."""
        own = {"PATH": os.environ["PATH"], "HOME": self.path, "TZ": "UTC", "LC_ALL": "C"}
        source = {"stdin": subprocess.DEVNULL} if input is None else {"input": input}
        return subprocess.run(command, env=own | (environment or {}), capture_output=True, check=check, **source)


class Keys:
    """The keys, and the variables by which the programs find them. In `nothing` gpg and gpgsm know no key."""

    def __init__(self, folder):
        self.folder = folder
        self.home, self.nothing = [{"GNUPGHOME": folder.at(name)} for name in ["gnupg", "nothing"]]
        for name in ["gnupg", "nothing"]:
            os.mkdir(folder.at(name), 0o700)
            folder.write(f"{name}/gpg.conf", "trust-model direct\n")
            folder.write(f"{name}/gpgsm.conf", "disable-crl-checks\n")
        self.make_gpg()
        self.make_gpgsm()
        self.make_ssh()

    def output(self, *command, input=b""):
        return self.folder.run(command, self.home, input).stdout

    def make_gpg(self):
        """Makes a key of each trust level, one with a subkey, one that has expired, and one to be revoked."""
        gpg = ["gpg", "--batch", "--pinentry-mode=loopback", "--passphrase=", "--faked-system-time=20200101T000000"]
        names = [*LEVELS, "Below", "Expired", "Revoked"]
        for name in names:
            days = "30d" if name == "Expired" else "never"
            self.output(*gpg, "--quick-gen-key", f"{name} <{name.lower()}@example.com>", "ed25519", "sign", days)
        keys = self.output("gpg", "--with-colons", "--list-keys").decode()
        self.gpg = dict(zip(names, re.findall(r"^fpr:+(\w+):", keys, flags=re.M)))
        self.output(*gpg, "--quick-add-key", self.gpg["Below"], "ed25519", "sign", "never")
        owners = [f"{self.gpg[name]}:{number + 2}:\n" for number, name in enumerate(LEVELS)]
        self.output("gpg", "--import-ownertrust", input="".join(owners).encode())

    def revoke(self):
        certificate = self.folder.read(f"gnupg/openpgp-revocs.d/{self.gpg['Revoked']}.rev")
        self.output("gpg", "--import", input=certificate.replace(b":-----", b"-----"))

    def make_gpgsm(self):
        """Makes a certificate, which is trusted."""
        key = "Key-Type: RSA\nKey-Length: 2048\nKey-Usage: sign\n"
        name = "Serial: random\nName-DN: CN=A U Thor\nNot-After: 2099-12-31\n"
        request = self.folder.write("certificate", key + name)
        gpgsm = ["gpgsm", "--batch", "--pinentry-mode=loopback", "--passphrase-fd=0"]
        certificate = self.output(*gpgsm, "--gen-key", request)
        self.output("gpgsm", "--import", input=certificate)
        keys = self.output("gpgsm", "--with-colons", "--list-keys").decode()
        self.gpgsm = re.search(r"^fpr:+(\w+):", keys, flags=re.M)[1]
        self.folder.write("gnupg/trustlist.txt", f"{self.gpgsm} S relax\n")

    def make_ssh(self):
        """Makes two keys, an agent that has the first, and files of allowed signers."""
        for name in ["author", "other"]:
            self.output("ssh-keygen", "-q", "-t", "ed25519", "-N", "", "-C", name, "-f", self.folder.at(name))
        public = [self.folder.read(f"{name}.pub").decode() for name in ["author", "other"]]
        author, other = self.ssh = [" ".join(it.split()[:2]) for it in public]
        for name, line in [
            ("allowed", f"author@example.com {author}"),
            ("allowed-other", f"other@example.com {other}"),
            ("allowed-second", f"!nobody@example.com,author@example.com {author}"),
            ("allowed-none", f"!nobody@example.com,!author@example.com {author}"),
            ("allowed-before", f'author@example.com valid-before="20231114221320" {author}'),
            ("allowed-after", f'author@example.com valid-after="20231114220000" {author}'),
            ("revoked", author),
        ]:
            self.folder.write(name, line + "\n")
        self.with_agent = {"SSH_AUTH_SOCK": self.folder.at("agent")}
        self.agent = subprocess.Popen(["ssh-agent", "-D", "-a", self.folder.at("agent")], stdout=subprocess.DEVNULL)
        while not os.path.exists(self.folder.at("agent")):
            time.sleep(0.01)
        self.folder.run(["ssh-add", "-q", self.folder.at("author")], self.with_agent)

    def close(self):
        """Ends the agents."""
        self.agent.terminate()
        for home in [self.home, self.nothing]:
            self.folder.run(["gpgconf", "--kill", "all"], home)
