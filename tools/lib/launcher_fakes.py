"""Fakes of rt and of a machine, and a small repository with the launchers, for tools/launcher-test.

The fake of rt notes each call and each proof. It builds a library after those below it, keeps what it built until a
source changes, and prints what rt prints. It is of one of two kits: `machine` keeps on the machine what it has proved,
and `out` looks for a library in the crate's own folder `out` alone. The program that it builds prints its arguments and
its input.
"""

import os
import shutil
import signal
import subprocess
import time

TOP = os.path.dirname(os.path.dirname(os.path.dirname(os.path.abspath(__file__))))
TOOLS = "basename cat cksum cmp cp dirname find flock grep mkdir mktemp mv nice readlink rm sed seq sleep sort wc".split()
CRATES = """\
# the crates, lowest first
low: bstr
left: low
right: low hex
gixobj_cli_show_alone: left # comment
gixobj_cli_tree_alone: right
other: low
gixobj: left right
gixobj_cli_batch: right
gixobj_c staticlib: left
gixobj_c_reencode staticlib: right
gixobj_c_fsck staticlib: left
gixobj_c_edit staticlib: left right
"""
SECONDS = 120

# Text of a crate with the word `slow` takes ten minutes, and with the word `broken` it isn't proved. The proofs of the
# crates in FAKE_TOGETHER end after each of them has begun, or after a minute. A run without a proof takes ten minutes
# for the input `slow`, and has no answer for the input `endless`.
RT = r"""#!/bin/sh
name=$(basename "$PWD")
echo "$name $*" >>"$FAKE_CALLS"
verb=$1
while [ $# -gt 0 ] && [ "$1" != -- ]; do shift; done
[ $# = 0 ] || shift

# Takes ten minutes.
be_slow() {
    echo $$ >"$FAKE_CALLS.pid"
    exec sleep 600
}

if [ "$verb" = try ]; then
    [ -f /dev/stdin ] || echo "rt: standard input did not end, so the program gets its first 0 bytes" >&2
    read -r line
    [ "$line" != slow ] || be_slow
    if [ "$line" = endless ]; then
        echo "checked: no-answer: the program did not end within the time limit" >&2
        echo "run=no-answer proved=no" >&2
        exit 6
    fi
    echo "$line" | "$FAKE_PROGRAM" "$@"
    status=$?
    echo "checked: ended status=$status" >&2
    echo "run=ended status=$status runners=1 proved=no" >&2
    exit "$status"
fi

# Prints the crates of the repository that this one depends on.
needs_of() {
    for need in $(sed -n "s/#.*//; s/^$1\( staticlib\)\{0,1\}://p" ../../crates.txt); do
        [ ! -d "../$need" ] || echo "$need"
    done
}

# Prints a sum of all that the crate is built from.
stamp_of() {
    {
        cat "../$1"/src/*.rt
        for need in $(needs_of "$1"); do stamp_of "$need"; done
    } | cksum
}

# Proves a crate, unless the kit has kept that.
prove() {
    kept="$FAKE_CALLS.kept/$1 $(stamp_of "$1")"
    [ "$FAKE_KIT" = out ] || [ ! -e "$kept" ] || return 0
    if grep -q broken "../$1"/src/*.rt; then
        echo "fn $1::main: not proved"
        exit 1
    fi
    ! grep -q slow "../$1"/src/*.rt || be_slow
    echo "$1" >>"$FAKE_CALLS.begun"
    case " $FAKE_TOGETHER " in
        *" $1 "*)
            for together in $FAKE_TOGETHER; do
                for tenth in $(seq 600); do
                    ! grep -qx "$together" "$FAKE_CALLS.begun" || break
                    sleep 0.1
                done
            done
            ;;
    esac
    echo "$1 $name $PWD" >>"$FAKE_CALLS.proofs"
    echo "fn $1::main: proved"
    echo "logic=proved functions=1 sum=0 native=nat,char,string incremental=trusted"
    mkdir -p "$FAKE_CALLS.kept" && : >"$kept"
}

# Proves and builds a library and those below it, each unless its stamp is that of its sources.
build_library() {
    for library in $(needs_of "$1"); do build_library "$library"; done
    if [ "$(cat "../$1/out/rlib/stamp" 2>/dev/null)" = "$(stamp_of "$1")" ]; then
        cat "../$1"/src/*.rt | cmp -s - "../$1/out/rlib/library" || { echo "rt: the library $1 is damaged"; exit 2; }
        return
    fi
    rm -rf "../$1/out/rlib"
    mkdir -p "../$1/out/rlib"
    prove "$1"
    cat "../$1"/src/*.rt >"../$1/out/rlib/library"
    stamp_of "$1" >"../$1/out/rlib/stamp"
}

for listed in $(sed 's/#.*//; s/[ :].*//' ../../crates.txt); do
    [ -d "../$listed" ] || { echo "rt: crates.txt: there is no folder of $listed"; exit 1; }
done
product=out/$name
! grep -q "^$name staticlib:" ../../crates.txt || product=out/lib$name.a
if [ "$verb $product" = "lib out/$name" ]; then
    build_library "$name"
    exit
fi
for library in $(needs_of "$name"); do build_library "$library"; done
if [ -e "$product" ] && [ "$(stamp_of "$name" && cksum <"$product")" = "$(cat "$product.stamp")" ]; then
    echo "rt: nothing has changed since the last proved build, by $product.stamp, so nothing is checked now" >&2
else
    prove "$name"
    mkdir -p out
    if [ "$verb" = run ]; then cp "$FAKE_PROGRAM" "$product"; else cat src/*.rt >"$product"; fi
    { stamp_of "$name" && cksum <"$product"; } >"$product.stamp"
fi
if [ "$verb" = run ]; then
    echo "rt: running $product; to give it other input, run that file yourself" >&2
    exec "$product" "$@"
fi
"""
PROGRAM = r"""#!/bin/sh
input=$(cat)
case $input in
    bad*)
        echo "gixobj: bad header" >&2
        exit 1
        ;;
esac
echo "$*: $input"
"""
# The memory of the machine is the one that is given.
AWK = """#!/bin/sh
for last; do :; done
[ "$last" != /proc/meminfo ] || exec AWK "$1" "$2" "$3" "$FAKE_MEMORY"
exec AWK "$@"
"""


def text_of(path):
    with open(path, encoding="utf-8") as it:
        return it.read()


def write(path, text, mode=0o644):
    os.makedirs(os.path.dirname(path), exist_ok=True)
    with open(path, "w", encoding="utf-8") as it:
        it.write(text)
    os.chmod(path, mode)


def same(found, wanted):
    """Fails unless both are equal."""
    assert found == wanted, f"{found!r}, not {wanted!r}"


def is_ended(pid):
    try:
        os.kill(pid, 0)
    except ProcessLookupError:
        return True
    try:
        # (a process that has ended, and that nothing has waited for yet)
        return text_of(f"/proc/{pid}/stat").rpartition(")")[2].split()[0] == "Z"
    except (FileNotFoundError, ProcessLookupError):
        return True


def wait_for_pid(file):
    """The process that a slow proof or a slow run has noted in a file."""
    end = time.monotonic() + SECONDS
    while not (os.path.exists(file) and text_of(file).strip()):
        assert time.monotonic() < end, "nothing slow is begun"
        time.sleep(0.02)
    pid = int(text_of(file))
    os.remove(file)
    return pid


class Repository:
    """A small repository with the launchers, in a temporary folder, and a path with the fakes."""

    def __init__(self, folder, kit="machine", shell="sh"):
        self.top, self.bin, self.calls_file = f"{folder}/top", f"{folder}/bin", f"{folder}/calls"
        for script in ("gixobj", "tools/archive", "tools/lib/lanes"):
            os.makedirs(os.path.dirname(f"{self.top}/{script}"), exist_ok=True)
            shutil.copy(f"{TOP}/{script}", f"{self.top}/{script}")
        write(f"{self.top}/examples/hello.loose", "hello\n")
        write(f"{self.top}/crates/gixobj_cli_batch/stdin", "hello\n")
        write(f"{self.top}/CHANGELOG.md", "# Changelog\n\nFor users.\n\n## 0.2.0\n\nText.\n\n## 0.1.0\n")
        self.set_crates(CRATES)
        os.makedirs(self.bin)
        for name in TOOLS:
            os.symlink(shutil.which(name), f"{self.bin}/{name}")
        os.symlink(shutil.which(shell) or shutil.which("sh"), f"{self.bin}/sh")
        self.fake("awk", AWK.replace("AWK", shutil.which("awk")))
        self.rt = self.fake("rt", RT)
        self.own = {"PATH": self.bin, "FAKE_CALLS": self.calls_file, "FAKE_KIT": kit, "FAKE_TOGETHER": ""}
        self.own.update(FAKE_PROGRAM=f"{folder}/program", FAKE_MEMORY=f"{folder}/memory")
        write(self.own["FAKE_PROGRAM"], PROGRAM, 0o755)
        self.set_machine(4, 20)

    def fake(self, name, script):
        """Replaces a tool by a script, and returns its path."""
        path = f"{self.bin}/{name}"
        if os.path.lexists(path):
            os.remove(path)
        write(path, script, 0o755)
        return path

    def set_machine(self, processors, memory):
        """Sets the number of processors, and the available memory in GB."""
        self.fake("nproc", f"#!/bin/sh\necho {processors}\n")
        write(self.own["FAKE_MEMORY"], f"MemTotal: 64000000 kB\nMemAvailable: {memory}000000 kB\n")

    def set_crates(self, text):
        """Writes the list of crates, and a source for each, which has its name."""
        write(f"{self.top}/crates.txt", text)
        for line in text.splitlines():
            name = line.partition("#")[0].partition(":")[0].split()[:1]
            if name:
                self.edit(name[0], f"{name[0]}\n")

    def source(self, name):
        return f"{self.top}/crates/{name}/src/lib.rt"

    def edit(self, name, text):
        write(self.source(name), text)

    def start(self, *arguments, script="gixobj"):
        """Starts a script, in a process group of its own."""
        # (a shell that started these tests in the background may ignore SIGINT, and nohup ignores SIGHUP)
        heeds = lambda: [signal.signal(it, signal.SIG_DFL) for it in (signal.SIGINT, signal.SIGHUP)]
        how = dict.fromkeys(("stdin", "stdout", "stderr"), subprocess.PIPE)
        how.update(text=True, env=self.own, start_new_session=True, preexec_fn=heeds)
        return subprocess.Popen([f"{self.bin}/sh", f"{self.top}/{script}", *arguments], **how)

    def run(self, *arguments, given="hello\n", script="gixobj"):
        """The status, the output and the lines of errors of a script."""
        started = self.start(*arguments, script=script)
        try:
            output, errors = started.communicate(given, timeout=SECONDS)
        finally:
            started.kill()
        return started.returncode, output, errors

    def lines(self, file):
        """The lines of a file of notes, which is then empty."""
        if not os.path.exists(file):
            return []
        lines = text_of(file).splitlines()
        os.remove(file)
        return lines

    def jobs(self):
        """The number of jobs for each crate that rt has built since this was last asked."""
        calls = [line.split() for line in self.lines(self.calls_file)]
        return {call[0]: int(call[call.index("--jobs") + 1]) for call in calls}

    def proofs(self):
        """The crates that were proved since this was last asked, in order: each with the one that rt was called for,
        and with the folder of crates."""
        words = [line.split() for line in self.lines(f"{self.calls_file}.proofs")]
        return [(name, caller, os.path.dirname(folder)) for name, caller, folder in words]

    def calls(self):
        """The calls of rt since this was last asked, sorted: the crate and the command of each. Each crate was proved
        at most once, by a call for itself."""
        proofs = self.proofs()
        assert all(name == caller for name, caller, _ in proofs), f"a library is proved below another: {proofs}"
        names = [name for name, _, _ in proofs]
        assert len(names) == len(set(names)), f"a library is proved twice: {proofs}"
        return sorted(" ".join(line.split()[:2]) for line in self.lines(self.calls_file))

    def log(self, name, of):
        return text_of(f"{self.top}/crates/{of}/out/{name}.log")
