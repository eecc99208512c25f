"""What the scripts that record results share: calls of git, and the format of bytes in a table."""

import os
import subprocess

# Git then reads no settings of the user.
NO_SETTINGS = {"GIT_CONFIG_GLOBAL": os.devnull, "GIT_CONFIG_NOSYSTEM": "1"}
ESCAPES = {ord("\n"): "\\n", ord("\t"): "\\t", 0: "\\0"}


def run_git(folder, *arguments, input=b""):
    """The output of git in a folder. Raises an error if git fails."""
    environment = {"PATH": os.environ["PATH"], **NO_SETTINGS}
    command = ["git", "-C", folder, *arguments]
    return subprocess.run(command, input=input, env=environment, capture_output=True, check=True).stdout


def escaped(content, escapes=ESCAPES):
    """Bytes in a column. Printable ASCII is unchanged, except for the backslash."""
    return "".join(escapes.get(it) or (chr(it) if 32 <= it < 127 and it != 92 else f"\\x{it:02x}") for it in content)
