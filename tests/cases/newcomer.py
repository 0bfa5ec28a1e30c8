"""What a new user does: sessions of a shell with what ./install installed, and lines that are refused."""
import os
import re
import shutil
from collections import namedtuple

from cases.installing import Place, unusable
from cases.running import TOP, Case, Outcome, differences, run
from cases.sessions import read_session, rewritten, script_of, session_differences, shown_by
from cases.writing import rewrite

SESSIONS = TOP / "tests" / "newcomer_sessions"
REFUSALS = TOP / "tests" / "newcomer_refusals"
INSTALLED = ("script", "c_program", "python_program", "durations", "installed", "words")  # need no mount
MOUNTED = ("mount", "own_mount", "pictures", "report")
LAST = "uninstalled"
NEEDED = {"installed: manual pages": "man"}  # for a case, of which only what it shows is skipped
WITHOUT_KIT = "examples/c/build, and there is no rt"
SECONDS = 290  # of a session
UNPROVED = re.compile(r"^\S+: nothing of this program is proved; it was installed so\n", re.MULTILINE)

Refusal = namedtuple("Refusal", "number line name at says")  # `number` is that of its line in the file


# ---- sessions


def masked(place, text):
    """What is another one in each run, or elsewhere."""
    text = re.sub(r"^\S+\.bash: line \d+: ", "bash: ", UNPROVED.sub("", text), flags=re.MULTILINE)
    for path, name in ((place.prefix, "PREFIX"), (place.repository, "REPOSITORY"), (place.room, "ROOM")):
        text = text.replace(str(path), name)
    text = re.sub(r"^(\S+ [\d.]+), (?:un)?proved(?:, commit [0-9a-f]{7,12})?$", r"\1, PROVED OR NOT, COMMIT", text, flags=re.MULTILINE)
    return re.sub(r"^ *\d+ (\[\d+\] \d+: )", r"PID \1", text, flags=re.MULTILINE)


def done_by_shell(place, name, script):
    """What a script has shown that is done by a shell of a user's, in a folder of its own. It leaves nothing mounted."""
    folder = place.room / "sessions" / name
    folder.mkdir(parents=True)
    file = folder.with_suffix(".bash")
    file.write_text("trap 'umount -l \"$PWD\"/place \"$PWD\" 2> /dev/null' EXIT\n" + script)
    names = {"PREFIX": place.prefix, "REPOSITORY": place.repository, "EXAMPLES": place.elsewhere, "ROOM": place.room, "LC_ALL": "C"}
    settings = ["%s=%s" % pair for pair in names.items()]
    got = place.do("env", *settings, "timeout", "-k", "5", SECONDS, "bash", file, folder=folder)
    return masked(place, got.stdout.decode(errors="backslashreplace"))


class Session:
    """A file of tests/newcomer_sessions, done at most once."""

    def __init__(self, place, name):
        self.place, self.name, self.path = place, name, SESSIONS / name
        self.cases = read_session(self.path.read_text())
        self.commands = [command for case in self.cases for command in case.commands]
        self._shown = None

    def shown(self):
        if self._shown is None:
            self._shown = shown_by(done_by_shell(self.place, self.name, script_of(self.commands)), len(self.commands))
        return self._shown

    def case(self, titled):
        first = sum(len(case.commands) for case in self.cases[: self.cases.index(titled)])

        def judged(_):
            shown, rest = self.shown()
            return session_differences(titled.commands, shown[first : first + len(titled.commands)], rest)

        return Case("%s: %s" % (self.name, titled.title), judged)

    def rewrite(self):
        """Writes the file anew, with what its commands show."""
        rewrite(self.path, rewritten(self.path.read_text(), self.commands, self.shown()[0]).encode())


# ---- lines that are refused


def read_refusals(text):
    """The lines that are done before each, and the refusals."""
    begin, refusals = [], []
    for number, line in enumerate(text.splitlines(), 1):
        word, _, rest = line.partition(" ")
        if word == "begin":
            begin.append(rest)
        elif word == "line":
            refusals.append(Refusal(number, rest, [], [], []))
        elif word in ("name", "at", "says"):
            getattr(refusals[-1], word).append(rest)
        elif line and word != "#":
            raise ValueError("%s:%d: what is %s?" % (REFUSALS.name, number, word))
    return begin, refusals


def explained_by(place, begin, refusal):
    """What is wrong with what is told of a line by --explain."""
    lines = [word for line in [*begin, refusal.line] for word in ("-c", line)]
    got = place.do("tracectl", "--explain", *lines)
    told = UNPROVED.sub("", got.stderr.decode()).splitlines()
    head = re.match(r"-c:%d:(?:(\d+):)? (\w+): " % (len(begin) + 1), told[0]) if told else None
    if got.status not in (1, 2) or not head:
        return ["status %d, %s" % (got.status, told)]
    found = [] if [head[2]] == refusal.name else ["it is %s" % head[2]]
    at = [refusal.line[int(head[1]) - 1 :]] if head[1] else []
    found += [] if at == refusal.at or (at == [""] and not refusal.at) else ["the caret is at %s" % at]
    return found + ["it does not say %r, but %s" % (part, told) for part in refusal.says if not any(part in line for line in told)]


def refusal_cases(place):
    begin, refusals = read_refusals(REFUSALS.read_text())

    def case(refusal):
        return Case("newcomer_refusals:%d: %s" % (refusal.number, refusal.line), lambda _: explained_by(place, begin, refusal))

    return [case(refusal) for refusal in refusals]


# ---- the rest


def builds_without_kit(place):
    """examples/c/build says that rt lacks, though the proved part of the library is there."""
    if any(os.path.exists(folder + "/rt") for folder in ("/usr/bin", "/bin")):
        return []
    got = run(["env", "PATH=/usr/bin:/bin", place.repository / "examples/c/build", place.room])
    return differences(got, Outcome(5, b"", b"examples/c/build: rt is needed for the library and was not found\n"))


def names_tests(table):
    """Each friction of the table has a test, which may be skipped here."""
    names = ["%s: %s" % (path.name, case.title) for path in SESSIONS.iterdir() for case in read_session(path.read_text())]
    names += ["newcomer_refusals", WITHOUT_KIT]
    found = []
    for friction in re.findall(r"^    friction: .*?(?=^    friction: |\n\n|\Z)", table, re.MULTILINE | re.DOTALL):
        tests = " ".join(friction.split()).partition(" -> ")[2].split("; ")
        found += ["no test is called %r" % test for test in tests if not any(name.startswith(test) for name in names)]
    return found


def can_mount(place):
    probe = place.room / "probe"
    probe.mkdir()
    got = place.do("bash", "-c", 'tracectl-mount "$1" && umount "$1"', "-", probe)
    if got.status:
        print("skipped: sessions over a mounted tracer, as nothing can be mounted here", flush=True)
    return not got.status


def has_needed(name):
    """Whether what a case needs is there."""
    lacking = [command for case, command in NEEDED.items() if name.startswith(case) and not shutil.which(command)]
    if lacking:
        print("skipped: %s, as there is no %s" % (name, lacking[0]), flush=True)
    return not lacking


def place_for(programs):
    """An installation, if there is what it takes."""
    reason = unusable()
    if reason or not shutil.which(os.environ.get("CC", "cc")):
        print("skipped: what a new user does, as %s" % reason, flush=True)
        return None
    place = Place(programs)
    if os.environ.get("CC"):
        place.place_command("cc", 'exec %s "$@"' % shutil.which(os.environ["CC"]))
    return place


def sessions_of(place):
    """In the order in which they are done."""
    mounted = MOUNTED if can_mount(place) else ()
    return [Session(place, name) for name in (*INSTALLED, *mounted, LAST)]


def write_sessions(place):
    """Writes what the sessions show anew, and shows what that changes."""
    for session in sessions_of(place):
        session.rewrite()
    return 0


def newcomer_cases(place):
    if place.installed.status:
        return [Case("./install", lambda _: ["it failed: %s" % (place.installed,)])]
    sessions = sessions_of(place)
    cases = [session.case(titled) for session in sessions[:-1] for titled in session.cases]
    cases = [case for case in cases if has_needed(case.name)]
    cases += refusal_cases(place)
    cases.append(Case(WITHOUT_KIT, lambda _: builds_without_kit(place)))
    cases += [sessions[-1].case(titled) for titled in sessions[-1].cases]
    return cases
