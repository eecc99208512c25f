"""The tasks of docs/GUIDE.md, and the calls of the crate that the code of each makes.

A call by its path is such a one, and a method if the type of its receiver is evident. It is evident of a parameter, of
what a call returns, and of a variable that `let` binds to one of these, if the function binds that name once. A method
whose name no other type has needs no receiver.
"""

import collections
import re

from repository import TOP

HEADING = re.compile(r"#{2,4} +(.*)")
LINK = re.compile(r"\]\(\.\./(crates/gixobj_tests_guide\w*/src/tasks/\w+\.rt)\)")

# a type: the key of the item, which is the path of its file and its name; and whether a Result or an Option wraps it
Type = collections.namedtuple("Type", "key wrapped")

PATH = r"[A-Za-z_]\w*(?:::[A-Za-z_]\w*)*"
START = re.compile(rf"(?:(?<![\w.:'])|(?<=\.\.))(?:let (?:mut )?(\w+)(?:: [^=;]*)? = (?:&(?:mut )?)?)?({PATH})")
PARAMETER = re.compile(rf"\b(\w+): (?:&(?:'\w+ )?(?:mut )?)?({PATH})")
PATTERNS = (r"\blet (?:mut )?(\w+)\b", r"\b(?:Some|Ok|Err)\((?:mut )?(\w+)\)+ =>?", r"\bfor (\w+) in\b", r"\|(\w+)\|")
TUPLES = (r"\blet \(([^)]*)\) =", r"\bfor \(([^)]*)\) in\b", r"\|\(([^)]*)\)\|", r"\b(?:Some|Ok)\(\(([^)]*)\)\)+ =>?")


def tasks():
    """The tasks: heading, anchor, code."""
    found, heading = [], None
    with open(f"{TOP}/docs/GUIDE.md", encoding="utf-8") as guide:
        for line in guide:
            heading = HEADING.match(line)[1].strip() if HEADING.match(line) else heading
            for path in LINK.findall(line):
                with open(f"{TOP}/{path}", encoding="utf-8") as code:
                    anchor = re.sub(r"[^\w\- ]", "", heading.replace("`", "").lower()).replace(" ", "-")
                    found.append((heading, anchor, code.read()))
    return found


def result_of(declaration, resolve):
    """The type of what a function returns, by its declaration. None if it is no item of the crate."""
    found = re.search(r"\) -> (.*)$", declaration)
    if not found:
        return None
    wrapped = re.match(r"(?:Result|Option)<(.*)", found[1])
    name = re.match(rf"(?:&(?:'\w+ )?(?:mut )?)?({PATH})", wrapped[1] if wrapped else found[1])
    key = resolve(name[1]) if name else None
    return Type(key, bool(wrapped)) if key else None


def end_of_arguments(code, at):
    """The position after the arguments whose bracket is at this position."""
    depth = 0
    for end in range(at, len(code)):
        depth += (code[end] in "([{") - (code[end] in ")]}")
        if depth == 0:
            return end + 1
    return len(code)


class Task:
    """The code of a task: what its imported names mean, and the calls that it makes."""

    def __init__(self, code, resolve, results, own):
        """`resolve` gives the key of a path, and `results` the type of what a call returns, by its key. `own` has the
        keys of the calls whose names no other type has, by their names."""
        self.resolve, self.results, self.own, self.calls = resolve, results, own, set()
        functions = re.split(r"^(?= *(?:pub )?fn )", re.sub(r"//.*", "", code), flags=re.M)[1:]
        heads = [" ".join(it[: it.find("{\n")].split()) for it in functions]
        self.local = {re.search(r"fn (\w+)", it)[1]: result_of(it, resolve) for it in heads}
        for function in functions:
            self.read(function)

    def read(self, function):
        """Adds the calls of a function."""
        at = function.find("{\n")
        bound = PARAMETER.findall(function[:at] + " ".join(re.findall(r"\|[^|]*\|", function[at:])))
        names = [name for name, _ in bound] + [name for it in PATTERNS for name in re.findall(it, function[at:])]
        groups = [group for it in TUPLES for group in re.findall(it, function[at:])]
        names += [name for group in groups for name in re.findall(r"\w+", group)]
        twice = {name for name, count in collections.Counter(names).items() if count > 1}
        keys = {name: self.resolve(path) for name, path in bound}
        scope = {name: Type(key, False) for name, key in keys.items() if key and name not in twice}
        for start in START.finditer(function, at):
            found, end = self.value(function, start[2], start.end(), scope)
            if start[1] and found and start[1] not in twice and function[end : end + 1] == ";":
                scope[start[1]] = found

    def value(self, code, path, at, scope):
        """The type of the value that begins with a path, and the position after it. Adds the calls on the way."""
        found = scope.get(path)
        if code[at : at + 1] == "(":
            found = self.local[path] if path in self.local else self.called(self.callee(path))
            at = end_of_arguments(code, at)
        while True:
            step = re.compile(r"\s*(?:(\?)|\.(\w+)(\()?)").match(code, at)
            if not step:
                return found, at
            at = step.end()
            if step[1]:
                found = found and found._replace(wrapped=False)
            else:
                found = self.called(self.method(found, step[2])) if step[3] else None
                at = end_of_arguments(code, at - 1) if step[3] else at

    def callee(self, path):
        """The key of a function by its path: of a free one, or of a type and its method."""
        owner, _, name = path.rpartition("::")
        key = owner and self.resolve(owner)
        return (*key, name) if key else self.resolve(path)

    def method(self, receiver, name):
        """The key of a method of a value."""
        key = (*receiver.key, name) if receiver and not receiver.wrapped else None
        return key if key in self.results else self.own.get(name)

    def called(self, key):
        """Adds a call, if it is one of the crate. Returns the type of its result."""
        if key in self.results:
            self.calls.add(key)
        return self.results.get(key)
