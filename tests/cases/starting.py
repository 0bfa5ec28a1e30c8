"""The starter."""
import errno
import os
import resource
import shutil
import signal
import subprocess
import tempfile
import time
from contextlib import contextmanager
from pathlib import Path

from cases.emitting import REFUSALS, REFUSED
from cases.running import SECONDS, SMALL, TOP, Case, Outcome, differences, failed_on, quoted, run
from cases.scripts import wanted
from cases.words import word_cases

SCRIPT = TOP / "examples" / "first-session"
WORDS = SMALL[:-1] + [str(SCRIPT)]

# What stands where `rt` is looked for, and where tools/unproved.py stands. Each notes that it was called.
NOTING = 'echo "%s $$" >> "$TOP/calls"; '
FAILING = "echo 'it was called' >&2; exit 9"
HANGING = "exec sleep 100"
KEEPING = 'cp "$TOP/kept" "$2"'  # of tools/unproved.py
SLOW = "sleep 1; " + KEEPING
OTHER_KIT = "echo 'another kit' >&2; exit 3"
PROVING = '[ "$*" = ci ] && mkdir -p crates/tracectl/out && cp "$TOP/kept" crates/tracectl/out/tracectl && echo "rt: program_arguments proved" && sleep 2'  # of rt

COMPILING = b"tracectl: compiling crates/tracectl/out/tracectl-unproved, unproved, which takes about a minute\n"
UNPROVED = b"tracectl: nothing of this program is proved; ./check proves and tests it all, ./tracectl --prove only proves it\n"
FAR = 4_000_000_000  # seconds after 1970


class Starter:
    """A folder with the starter, what it reads of the repository, and a copy of the program, proved or as it would be made."""

    def __init__(self, top, program, rt, compiler, is_built):
        self.top = Path(top)
        self.proved = self.top / "crates" / "tracectl" / "out" / "tracectl"
        self.unproved = self.proved.with_name("tracectl-unproved")
        self.source = self.top / "crates" / "program_arguments" / "src" / "words.rt"
        for place in (self.proved.parent, self.source.parent, self.top / "commands", self.top / "tools"):
            place.mkdir(parents=True)
        self.source.write_text("// a source\n")
        self.source.with_name("program.rt").write_text('const VERSION: &str = "%s";\n' % run([program, "--version"]).stdout.decode().split()[1])
        (self.top / "crates.txt").write_text("program_arguments: clap\ntracectl may_wait=4: program_arguments\ntracectl_mount: program_arguments\n")
        for name in ("tracectl", "tracectl-mount", "HANDLES", "tools/programs.bash", "tools/building.bash"):
            shutil.copy(str(TOP / name), str(self.top / name))
        old = time.time() - 100
        for path in (self.source, self.source.with_name("program.rt"), self.source.parent, self.top / "crates.txt"):
            os.utime(str(path), (old, old))
        shutil.copy(str(program), str(self.proved if is_built else self.top / "kept"))
        self.place("rt", rt)
        self.place("unproved.py", compiler)

    def place(self, name, lines):
        """Puts another command where `rt`, tools/unproved.py or another one is looked for."""
        command = self.top / ("tools" if name == "unproved.py" else "commands") / name
        command.write_text("#!/bin/sh\nTOP='%s'\n%s\n" % (self.top, (NOTING % name if name != "awk" else "") + lines))
        command.chmod(0o755)

    def words(self, words, settings=(), command=None):
        found_first = ["env", "PATH=%s:%s" % (self.top / "commands", os.environ["PATH"])]
        return [str(word) for word in found_first + list(settings) + [command or self.top / "tracectl"] + words]

    def start(self, words=WORDS, settings=(), command=None, **how):
        return run(self.words(words, settings, command), **how)

    def begin(self, words=WORDS):
        """Starts it, and waits for nothing. What these tests were started by may have had SIGHUP ignored (nohup), which a shell could not trap."""

        def heed():
            signal.signal(signal.SIGHUP, signal.SIG_DFL)

        return subprocess.Popen(self.words(words), stdin=subprocess.DEVNULL, stdout=subprocess.PIPE, stderr=subprocess.PIPE, preexec_fn=heed)

    def calls(self, name):
        """The process of each call of a command."""
        calls = self.top / "calls"
        return [line.split()[1] for line in (calls.read_text().splitlines() if calls.exists() else []) if line.split()[0] == name]


@contextmanager
def starter(program, rt=FAILING, compiler=FAILING, is_built=False):
    with tempfile.TemporaryDirectory() as top:
        yield Starter(top, program, rt, compiler, is_built)


def started(program, words, **how):
    """What the starter does with these words over a proved program. What would make one fails, so that it would show."""
    with starter(program, is_built=True) as one:
        return one.start(words, **how)


def telling(got, want, *parts):
    """What is wrong with a start that is to do what is wanted, and whose standard error is to have these parts and no more lines than they have."""
    found = differences(got._replace(stderr=b""), want._replace(stderr=b""))
    found += ["standard error lacks %s: %s" % (quoted(part), got.stderr) for part in parts if part not in got.stderr]
    many = sum(part.count(b"\n") for part in parts)
    return found + ([] if got.stderr.count(b"\n") == many else ["standard error has other lines: %s" % got.stderr])


NOT_MADE = Outcome(5, b"", b"")


def first_unproved_then_proved(program):
    """Where there is no program one is compiled, once, and taken until there is a proved one; then nothing is said."""
    with starter(program, compiler=KEEPING) as one:
        found = telling(one.start(), wanted(SCRIPT), COMPILING, UNPROVED)
        one.place("unproved.py", FAILING)
        found += telling(one.start(), wanted(SCRIPT), UNPROVED)
        one.place("rt", PROVING)
        got = one.start(["--prove"])
        found += telling(got, Outcome(0, b"", b""), b"tracectl: proving 2 crates", b"nothing is kept of earlier runs\n", b"tracectl: program_arguments is proved, 1 of 2, ", b" seconds\n", b"tracectl: the program is proved\n")
        one.place("rt", FAILING)
        found += telling(one.start(), wanted(SCRIPT))
        found += telling(one.start(["--prove"]), Outcome(0, b"", b""), b"tracectl: the program is proved\n")
        return found + ([] if len(one.calls("rt")) == 1 else ["rt was called %d times" % len(one.calls("rt"))])


def changed_sources(program):
    """A source that is newer than the proved program has one compiled, and again when it changes again; so has a file that is added."""
    with starter(program, compiler=KEEPING, is_built=True) as one:
        shutil.copy(str(program), str(one.top / "kept"))
        found = []
        for path in (one.source, one.source, one.source.parent / "more.rt"):
            now = time.time()
            path.write_text("// another source\n")
            os.utime(str(path), (now, now))
            found += telling(one.start(), wanted(SCRIPT), COMPILING, UNPROVED)
            found += telling(one.start(), wanted(SCRIPT), UNPROVED)
        return found + ([] if len(one.calls("unproved.py")) == 3 else ["compiled %d times" % len(one.calls("unproved.py"))])


def failed_compilation(program):
    """It is told, nothing is run, and the next start compiles."""
    with starter(program, compiler='echo half > "$2"; ' + FAILING) as one:
        told = (COMPILING, b"it was called\n", b"tracectl: crates/tracectl/out/tracectl-unproved could not be compiled; ", b"tracectl-unproved.log says more\n")
        one.place("unproved.py", FAILING)
        found = telling(one.start(), NOT_MADE, *told)
        one.place("unproved.py", KEEPING)
        return found + telling(one.start(), wanted(SCRIPT), COMPILING, UNPROVED)


def other_kit(program):
    """Where the kit works in other ways the program is proved, and where that fails too it is told."""
    with starter(program, rt=PROVING, compiler=OTHER_KIT) as one:
        proving = (COMPILING, b"another kit\n", b"tracectl: so the program is proved", b"\n", b"tracectl: proving 2 crates", b"\n", b"tracectl: program_arguments is proved", b"\n")
        found = telling(one.start(), wanted(SCRIPT), *proving)
        found += telling(one.start(), wanted(SCRIPT))
    with starter(program, compiler=OTHER_KIT) as one:
        told = (b"another kit\n", b"it was called\n", b"tracectl: tracectl was not proved; ", b"tracectl.log says more\n")
        return found + telling(one.start(), NOT_MADE, COMPILING, b"tracectl: so the program is proved", b"\n", b"tracectl: proving 2 crates", b"\n", *told)


def two_at_once(program):
    """Of two that are started at once one compiles, the other waits, and both do their scripts."""
    if not shutil.which("flock"):
        return []
    with starter(program, compiler=SLOW) as one:
        both = [one.begin() for _ in range(2)]
        ended = [(process.communicate(timeout=SECONDS), process.returncode) for process in both]
        found = []
        for (stdout, _), status in ended:
            found += differences(Outcome(status, stdout, b""), wanted(SCRIPT))
        waited = b"tracectl: another tracectl makes crates/tracectl/out/tracectl-unproved; this one goes on once that has ended\n"
        found += [] if sum(waited in stderr for (_, stderr), _ in ended) == 1 else ["one was to wait: %s" % ended]
        return found + ([] if len(one.calls("unproved.py")) == 1 else ["compiled %d times" % len(one.calls("unproved.py"))])


def stopped(words, name, number):
    """A signal ends what it had begun, nothing half-made is left, and the next start makes what is missing."""

    def stopping(program):
        with starter(program, rt=HANGING, compiler=HANGING) as one:
            process = one.begin(words)
            for _ in range(100):
                if one.calls(name):
                    break
                time.sleep(0.1)
            process.send_signal(number)
            stdout, _ = process.communicate(timeout=SECONDS)
            found = differences(Outcome(process.returncode, stdout, b""), Outcome(128 + number, b"", b""))
            found += ["%s goes on" % call for call in one.calls(name) if os.path.exists("/proc/%s" % call)]
            found += ["%s is left" % path for path in (one.proved, one.unproved) if path.exists()]
            one.place("unproved.py", KEEPING)
            return found + telling(one.start(), wanted(SCRIPT), COMPILING, UNPROVED)

    return stopping


def source_of_the_future(program):
    """It is compiled once for each of its times, and told."""
    ahead = b"tracectl: crates/program_arguments/src/words.rt is dated in the future; crates/tracectl/out/tracectl-unproved was made from it as it is\n"
    found = []
    with starter(program, compiler=KEEPING) as one:
        for when in (FAR, FAR + 1):
            os.utime(str(one.source), (when, when))
            one.place("unproved.py", KEEPING)
            found += telling(one.start(), wanted(SCRIPT), COMPILING, ahead, UNPROVED)
            one.place("unproved.py", FAILING)
            found += telling(one.start(), wanted(SCRIPT), ahead, UNPROVED)
        now = time.time()
        os.utime(str(one.source), (now, now))
        got = one.start()
        return found + ([] if got.status == 5 and b"it was called" in got.stderr else ["not compiled once it was written again: %s" % quoted(got.stderr)])


def what_is_lacking(program):
    """No rt, a folder that can't be written, little memory: each is told in a sentence."""
    with starter(program) as one:
        (one.top / "commands" / "rt").unlink()
        path = "PATH=%s:/usr/bin:/bin" % (one.top / "commands")
        if not any(os.path.exists(folder + "/rt") for folder in ("/usr/bin", "/bin")):
            found = telling(one.start(settings=[path]), NOT_MADE, b"tracectl: rt, the command of the Rattle kit, is needed and was not found\n")
    with starter(program, compiler=KEEPING) as one:
        one.proved.parent.rmdir()
        one.proved.parent.write_text("no folder")
        found += telling(one.start(), NOT_MADE, b"crates/tracectl/out cannot be written\n")
    with starter(program, compiler=KEEPING) as one:
        one.place("awk", "echo 2000000")
        little = b"tracectl: 1953 MiB of memory are free, which may be too little: up to 4096 are needed\n"
        return found + telling(one.start(), wanted(SCRIPT), little, COMPILING, UNPROVED)


def commit_all(folder):
    """Makes a checkout of a folder. Has the commit."""
    git = ["git", "-C", str(folder), "-c", "user.name=nobody", "-c", "user.email=nobody@localhost"]
    for words in (["init", "-q"], ["add", "-A"], ["commit", "-q", "-m", "All of it"]):
        subprocess.run(git + words, check=True)
    return subprocess.run(git + ["rev-parse", "--short=12", "HEAD"], stdout=subprocess.PIPE, check=True).stdout.decode().strip()


def told_versions(program):
    """--version and -V say whether the program is proved, and which commit it is of, if it is a checkout. Nothing is compiled for it."""
    found = []

    def tells(one, tool, told, words=("--version",)):
        wanted = "%s %s, %s\n" % (tool, run([program, "--version"]).stdout.decode().split()[1], told)
        got = one.start(list(words), command=one.top / tool)
        found.extend("%s: %s" % (told, difference) for difference in differences(got, Outcome(0, wanted.encode(), b"")))

    with starter(program) as one:
        for tool in ("tracectl", "tracectl-mount"):
            tells(one, tool, "unproved")
            tells(one, tool, "unproved", ["-V"])
    with starter(program, is_built=True) as one:
        tells(one, "tracectl", "proved")
        tells(one, "tracectl-mount", "unproved", ["--cpus", "2", "-V"])
        if shutil.which("git"):
            commit = commit_all(one.top)
            tells(one, "tracectl", "proved, commit %s" % commit)
            (one.top / "tracectl-mount").write_text((one.top / "tracectl-mount").read_text() + "\n")
            tells(one, "tracectl-mount", "unproved, commit %s-dirty" % commit)
    return found


def mount_helps(program):
    """./tracectl-mount --help shows each of its options, with its range, and compiles nothing."""
    parts = ["--cpus N ", " 1 to 8 [", "--pages N ", " 2 to 1024 [", "--page-bytes N ", " 64 to 4080, a multiple of 8 [", "--allow-other ", "--mode MODE ", " 0 to 0777 ["]
    parts += ["--uid N ", "--gid N ", "-f ", "--help ", "--version ", "-- COMMAND [ARG ..]", "--over DIR ", "Exit status:"]
    found = []
    with starter(program) as one:
        for words in (["--help"], ["-h"], ["--help", "DIR"], ["--cpus", "2", "--help"]):
            got = one.start(words, command=one.top / "tracectl-mount")
            found += differences(got._replace(stdout=b""), Outcome(0, b"", b""))
            found += ["help lacks %s" % quoted(part) for part in parts if part not in got.stdout.decode()]
    return found


def where_it_is_started(program):
    """It does the same from another folder, by a link, with a CDPATH, and with a TMPDIR that isn't there."""
    found = []
    for compiler, is_built, more in ((FAILING, True, ()), (KEEPING, False, (COMPILING, UNPROVED))):
        for by in ("link", "relative", "absolute"):
            with starter(program, compiler=compiler, is_built=is_built) as one, tempfile.TemporaryDirectory() as other:
                link = Path(other) / "link"
                link.symlink_to(one.top / "tracectl")
                command = {"link": link, "relative": os.path.relpath(str(one.top / "tracectl"), os.getcwd()), "absolute": None}[by]
                settings = ["CDPATH=.:/:%s" % one.top, "TMPDIR=%s" % (one.top / "missing")]
                found += telling(one.start(WORDS, settings, command), wanted(SCRIPT), *more)
    return found


def file_that_may_not_grow(program):
    """The system's signal ends a program that writes to such a file. The starter has it ignored, so that the write fails."""

    def limit_file():
        resource.setrlimit(resource.RLIMIT_FSIZE, (30, 30))

    with starter(program, is_built=True) as one, tempfile.TemporaryFile() as file:
        got = one.start(SMALL, script=REFUSED, stdout=file, before=limit_file)
        file.seek(0)
        return differences(got._replace(stdout=file.read()), failed_on("standard output", errno.EFBIG)._replace(stdout=REFUSALS[:30]))


def compiler_of_another_kit(_):
    """tools/unproved.py tells that a kit is not the one that it knows, and makes nothing."""
    with tempfile.TemporaryDirectory() as folder:
        top = Path(folder)
        (top / "bin").mkdir()
        (top / "bin" / "rtlib.py").write_text("# another one\n")
        (top / "rt").write_text("#!/bin/sh\necho '%s/START.md'\n" % top)
        (top / "rt").chmod(0o755)
        got = run(["env", "PATH=%s:%s" % (top, os.environ["PATH"]), TOP / "tools" / "unproved.py", "tracectl", top / "made"])
        return telling(got, Outcome(3, b"", b""), b"than tools/unproved.py knows, which are those of rattle-kit-13\n") + (["something was made"] if (top / "made").exists() else [])


def starter_cases():
    return word_cases(started, "./tracectl") + [
        Case("./tracectl: an unproved program, and then a proved one", first_unproved_then_proved),
        Case("./tracectl: sources that change", changed_sources),
        Case("./tracectl: a compilation that fails", failed_compilation),
        Case("./tracectl: a kit that works in other ways", other_kit),
        Case("./tracectl: two at once", two_at_once),
        Case("./tracectl: a compilation that is terminated", stopped(WORDS, "unproved.py", signal.SIGTERM)),
        Case("./tracectl: a compilation whose terminal is closed", stopped(WORDS, "unproved.py", signal.SIGHUP)),
        Case("./tracectl: a proof that is terminated", stopped(["--prove"], "rt", signal.SIGTERM)),
        Case("./tracectl: a source that is dated in the future", source_of_the_future),
        Case("./tracectl: what is lacking", what_is_lacking),
        Case("./tracectl: where it is started", where_it_is_started),
        Case("./tracectl and ./tracectl-mount: --version", told_versions),
        Case("./tracectl-mount: --help", mount_helps),
        Case("./tracectl: into a file that may not grow", file_that_may_not_grow),
        Case("tools/unproved.py: another kit", compiler_of_another_kit),
    ]
