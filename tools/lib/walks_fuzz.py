"""Graphs of commits, and what git lists of them beside what the replay of walks lists. `tools/fuzz --walks` runs it.

A graph is a line as `A@1<;B@2<A`: each commit with its seconds and its parents. A query is a command and names of
commits, hidden ones with `^` before them. The repository has no trees. Its commits are in one pack, and in a
commit-graph.
"""

import concurrent.futures
import hashlib
import os
import random
import subprocess

import fsck_fuzz

BLOCK, SECONDS, WORKERS = 500, 600, 4
EMPTY_TREE = "4b825dc642cb6eb9a060e54bf8d69288fbee4904"
LISTS = {"date": ["--date-order"], "topo": ["--topo-order"], "reverse": ["--date-order", "--reverse"]}


def parsed(graph):
    """The commits of a graph: name, seconds, and names of parents."""
    for part in graph.split(";"):
        name, _, rest = part.partition("@")
        seconds, _, parents = rest.partition("<")
        yield name, int(seconds), [it for it in parents.split(",") if it]


class Git(fsck_fuzz.Git):
    """A repository of the commits of several graphs."""

    def __init__(self, folder):
        super().__init__(folder, "sha1")
        self.names, self.ids, self.dates = {}, {}, {}

    def add(self, graphs):
        """Adds the commits of these graphs in place of others, each graph known by its number."""
        self.forget()
        self.names, self.ids, self.dates, contents = {}, {}, {}, []
        for number, graph in enumerate(graphs):
            for name, seconds, parents in parsed(graph):
                lines = "".join(f"parent {self.ids[number, it]}\n" for it in parents)
                actor = f"A <a@b> {seconds} +0000"
                content = f"tree {EMPTY_TREE}\n{lines}author {actor}\ncommitter {actor}\n\n{number} {name}\n".encode()
                id = hashlib.sha1(b"commit %d\0%s" % (len(content), content)).hexdigest()
                self.ids[number, name], self.names[id], self.dates[id] = id, name, seconds
                contents.append(("commit", content))
        self.done("index-pack", "--stdin", input=fsck_fuzz.pack(contents, "sha1"))
        self.done("commit-graph", "write", "--stdin-commits", input="".join(f"{it}\n" for it in self.names).encode())

    def done(self, *arguments, input):
        ran = self.run(*arguments, input=input)
        if ran.returncode:
            raise SystemExit(f"fuzz: git {arguments[0]}: {ran.stderr.decode(errors='replace')}")

    def forget(self):
        super().forget()
        path = f"{self.folder}/.git/objects/info/commit-graph"
        if os.path.exists(path):
            os.chmod(path, 0o600)
            os.remove(path)

    def answer(self, number, query, has_graph):
        """What git prints to a query about the graph of this number, with the commit-graph or without."""
        command, *commits = query.split(" ")
        ids = [it[: it.startswith("^")] + self.ids[number, it.lstrip("^")] for it in commits]
        setting = f"core.commitGraph={str(has_graph).lower()}"
        ran = self.run("-c", setting, *self.arguments(command, ids))
        if ran.returncode not in (0, 1) or ran.stderr:
            raise SystemExit(f"fuzz: {query}: {ran.stderr.decode(errors='replace')}")
        if command == "is-ancestor":
            return "no" if ran.returncode else "yes"
        if command == "left-right":
            return ran.stdout.decode().strip().replace("\t", " ")
        return " ".join(self.names[it] for it in ran.stdout.decode().split()) or "none"

    @staticmethod
    def arguments(command, ids):
        if command == "is-ancestor":
            return ["merge-base", "--is-ancestor", *ids]
        if command == "bases":
            return ["merge-base", "--all", *ids]
        if command == "left-right":
            return ["rev-list", "--count", "--left-right", f"{ids[0]}...{ids[1]}"]
        return ["rev-list", *LISTS[command], *ids]


def sorted_bases(graph, bases):
    """Merge bases, newest first, and those of one time by their names."""
    seconds = {name: it for name, it, _ in parsed(graph)}
    return " ".join(sorted(bases.split(" "), key=lambda it: (-seconds.get(it, 0), it)))


class Draw:
    """Graphs and queries of a seed."""

    def __init__(self, seed):
        self.draw = random.Random(seed)

    def is_one_in(self, count):
        return self.draw.randrange(count) == 0

    def graph(self):
        """A graph of 1 to 60 commits: lines, branches, criss-cross and octopus merges, with several roots."""
        count = self.draw.choice([1, 3, 5, 8, 8, 12, 12, 20, 30, 60])
        names = [f"c{it}" for it in range(count)]
        dates = self.dates(count)
        window, most = self.draw.choice([1, 2, 3, 4, 60]), self.draw.choice([1, 2, 2, 3, 6])
        roots = self.draw.choice([5, 20, 100])
        parts = []
        for at, name in enumerate(names):
            parents = self.draw.choices(names[max(at - window, 0) : at], k=self.draw.randint(1, most)) if at else []
            if not self.is_one_in(10):
                parents = list(dict.fromkeys(parents))
            if self.is_one_in(roots):
                parents = []
            parts.append(f"{name}@{dates[at]}<{','.join(parents)}")
        return ";".join(parts)

    def dates(self, count):
        """The seconds of commits: growing, falling, of few values, equal, or of any value below 2^34."""
        number = self.draw.randrange(6)
        if number == 0:
            return range(1, count + 1)
        if number == 1:
            return range(count, 0, -1)
        if number == 2:
            return [self.draw.randrange(4) for _ in range(count)]
        if number == 3:
            return [7] * count
        if number == 4:
            return [self.draw.randrange(2**34) for _ in range(count)]
        return [max(it + self.draw.choice([0, 0, 0, -3, -9, 4, 30]), 0) for it in range(count)]

    def queries(self, graph):
        """Queries of each kind about a graph."""
        names = [it for it, _, _ in parsed(graph)]
        tips = self.draw.choices(names, k=self.draw.choice([1, 1, 2, 3])) + ([names[-1]] if self.is_one_in(2) else [])
        hidden = self.draw.choices(names, k=self.draw.choice([0, 1, 1, 2, 3]))
        starts = " ".join([*tips, *(f"^{it}" for it in hidden)])
        pair = " ".join(self.draw.choices(names[-8:], k=2))
        return [f"date {starts}", f"topo {starts}", f"bases {pair}", f"is-ancestor {' '.join(self.draw.choices(names, k=2))}"]


def rows_of(git, graphs, queries):
    """A row for each query: what git lists with a commit-graph."""
    git.add(graphs)
    cases = [(number, query) for number, its in enumerate(queries) for query in its]
    with concurrent.futures.ThreadPoolExecutor(WORKERS) as pool:
        answers = list(pool.map(lambda it: git.answer(*it, True), cases))
    for (number, query), answer in zip(cases, answers):
        if query.startswith("bases "):
            answer = sorted_bases(graphs[number], answer)
        yield f"{number}\tgit\t{graphs[number]}\t{query}\t-\t{answer}"


def replayed(program, folder, rows):
    """How many rows agree, and what the program prints of those that differ."""
    with open(f"{folder}/walks.tsv", "w", encoding="ascii") as out:
        out.write("".join(f"{it}\n" for it in rows))
    ran = subprocess.run([program], cwd=folder, capture_output=True, timeout=SECONDS)
    *lines, last = ran.stdout.decode().splitlines() or [""]
    form = last.split(" ")
    if len(form) != 4 or form[3] != str(len(rows)) or ran.returncode not in (0, 1) or ran.stderr:
        raise SystemExit(f"fuzz: the program ends with {ran.returncode}: {last} {ran.stderr.decode(errors='replace')}")
    return int(form[1]), lines


def compare(program, seed, count, folder, out):
    """Compares walks over random graphs. Returns how many queries are compared, and how many differ."""
    git, draw, compared, wrong = Git(f"{folder}/git"), Draw(seed), 0, 0
    while count > 0:
        graphs = [draw.graph() for _ in range(min(BLOCK, count))]
        rows = list(rows_of(git, graphs, [draw.queries(it) for it in graphs]))
        same, lines = replayed(program, folder, rows)
        for line in lines:
            print(line, file=out, flush=True)
        compared, wrong, count = compared + len(rows), wrong + len(rows) - same, count - BLOCK
    return compared, wrong


def recorded_row(git, number, row):
    """A row of the table as git prints it now. The row of a rule keeps its result."""
    name, source, graph, query, _, result = row
    without, with_graph = (git.answer(number, query, it) for it in (False, True))
    if source == "git":
        result = with_graph
    differs = [f"{view}: {it}" for view, it in (("without", without), ("with", with_graph)) if it != result]
    return [name, source, graph, query, "; ".join(differs) or "-", result]


def record(table, folder, out):
    """Records the rows of the table anew. Returns how many there are, and how many differ."""
    with open(table, encoding="ascii") as it:
        rows = [line.split("\t") for line in it.read().splitlines() if not line.startswith("#")]
    git, wrong = Git(f"{folder}/git"), 0
    git.add([row[2] for row in rows])
    for number, row in enumerate(rows):
        anew = recorded_row(git, number, row)
        if anew != row:
            wrong += 1
            print("\t".join(row) + "\n  git: " + "\t".join(anew), file=out, flush=True)
    return len(rows), wrong
