"""What the scripts share: the folder of the repository, its crates, and the limits of a crate."""

import os
import sys

TOP = os.path.dirname(os.path.dirname(os.path.dirname(os.path.abspath(__file__))))
# lines in src/ of a crate, and of a crate of tests; mutants of a crate in the gate
LINES, LINES_OF_TESTS, MUTANTS = 1500, 2500, 45


def usage(text, arguments):
    """Prints how a script is used, for these arguments. The status is 0 if they ask for that, else 2."""
    is_asked = arguments in (["-h"], ["--help"])
    print(text.strip(), file=sys.stdout if is_asked else sys.stderr)
    return 0 if is_asked else 2


def is_of_tests(name):
    return name.startswith("gixobj_tests_")


def max_lines(name):
    return LINES_OF_TESTS if is_of_tests(name) else LINES


def dependencies(top=TOP):
    """The crates, lowest first, each with its dependencies: those of crates.txt and the kit's."""
    found = {}
    with open(f"{top}/crates.txt", encoding="utf-8") as it:
        for line in it:
            head, _, names = line.split("#")[0].partition(":")
            if head.strip():
                found[head.split()[0]] = names.split()
    return found


def below(listed, name):
    """The direct and indirect dependencies of a crate in the repository, lowest first."""
    found, remaining = set(), [name]
    while remaining:
        for it in listed[remaining.pop()]:
            if it in listed and it not in found:
                found.add(it)
                remaining.append(it)
    return [it for it in listed if it in found]
