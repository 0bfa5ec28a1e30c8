"""./install, and what it installs."""
import atexit
import os
import re
import shutil
import subprocess
import tempfile
from pathlib import Path

from cases.library import without_times
from cases.running import TOP, Case, Outcome, differences, quoted, run, text_differences
from cases.scripts import scripts_of, wanted, words_of
from cases.starting import commit_all

NAMES = ("tracectl", "tracectl_mount")  # of crates with a program
LEFT_OUT = shutil.ignore_patterns("out", "proofs", "planted", "must-fail", ".git", "rows", "bench", "__pycache__")
USAGE = "usage: ./install [--prefix DIR] [--destdir DIR] [--no-library]\n       ./install --uninstall [--prefix DIR] [--destdir DIR]\n"
UNPROVED = "%s: nothing of this program is proved; it was installed so\n"
TELLING = re.compile(rb"^install: nothing of this library is proved; .*\n", re.M)

# In a namespace: these two folders are covered.
HIDING = 'mount -t tmpfs none "$1" && mount -t tmpfs none "$2" && exec "${@:3}"'

# On a folder: a tracer records, and is taken away. What was asked of it is recorded, and replays.
ON_FOLDER = """
set -e
mkdir place
tracectl-mount --record recorded place
echo 'tick u64 n' > place/synthetic_events
echo 1 > place/events/synthetic/tick/enable
echo n=5 > place/events/synthetic/tick/inject
grep -o 'tick: n=.*' place/trace
tracectl-mount --over place -- grep -o 'tick: n=.*' /sys/kernel/tracing/trace
umount place
tracectl-mount --replay recorded trace | grep -o 'tick: n=.*'
"""


def unusable():
    """What there is not to use the library by, if anything."""
    for command in (os.environ.get("CC", "cc"), "ar", "pkg-config", "rt"):
        if not shutil.which(command):
            return "there is no %s" % command
    return None


class Place:
    """A folder with a copy of the repository that installs, the prefix, and a folder elsewhere with the examples."""

    def __init__(self, programs):
        self.room = Path(tempfile.mkdtemp(prefix="installed-"))
        atexit.register(shutil.rmtree, str(self.room))
        self.room.chmod(0o755)
        self.repository, self.prefix, self.elsewhere, self.home = (self.room / name for name in ("repository", "prefix", "elsewhere", "home"))
        self.kit = Path(subprocess.run(["rt", "doc"], stdout=subprocess.PIPE, check=True).stdout.decode().strip()).parent
        self.copy_repository(programs)
        shutil.copytree(str(TOP / "examples"), str(self.elsewhere))
        self.home.mkdir()
        (self.room / "commands").mkdir()
        self.place_command("rt", "echo 'rt was called' >&2; exit 9")
        self.hiding = self.how_to_hide()
        self.install_and_move()

    def copy_repository(self, programs):
        """Its files with their times, what is built, and a commit."""
        shutil.copytree(str(TOP), str(self.repository), ignore=LEFT_OUT)
        self.commit = commit_all(self.repository) if shutil.which("git") else None
        subprocess.run([str(TOP / "examples" / "c" / "build"), str(self.room)], check=True, stderr=subprocess.DEVNULL)
        built = [path for path in (TOP / "crates" / "tracectl_c" / "out").glob("libtracectl_c*.a*") if path.suffix != ".lock"]
        for name, program in programs.items():
            proved = TOP / "crates" / name / "out" / name
            built += [path for path in (proved, proved.with_name(name + "-ahead")) if program == proved and path.exists()]
            (self.repository / "crates" / name / "out").mkdir()
            if program != proved:
                shutil.copy(str(program), str(self.repository / "crates" / name / "out" / (name + "-unproved")))
        (self.repository / "crates" / "tracectl_c" / "out").mkdir()
        for path in built:
            shutil.copy2(str(path), str(self.repository / path.relative_to(TOP)))

    def place_command(self, name, lines):
        command = self.room / "commands" / name
        command.write_text("#!/bin/sh\n%s\n" % lines)
        command.chmod(0o755)

    def how_to_hide(self):
        """The words that have a command see neither the repository nor the kit; none where there are no namespaces."""
        words = ["unshare", "-m" if os.geteuid() == 0 else "-Urm", "bash", "-c", HIDING, "-", TOP, self.kit]
        if shutil.which("unshare") and run([*words, "true"]).status == 0:
            return words
        print("skipped: covering the repository, as there are no namespaces here", flush=True)
        return []

    def install(self, *words, settings=()):
        """What ./install does, but for what it tells of the library."""
        got = run(["env", "HOME=%s" % self.home, *settings, self.repository / "install", *words])
        return got._replace(stderr=TELLING.sub(b"", got.stderr))

    def install_and_move(self):
        """Installs, keeps what the repository says of itself, and moves it away."""
        self.installed = self.install("--prefix", self.prefix)
        lines = self.installed.stdout.decode().splitlines()
        self.versions, self.settings = lines[:3], [line for line in lines if line.startswith("  export ")]
        self.told = [run([self.repository / name.replace("_", "-"), "--version"]).stdout.decode().strip() for name in NAMES]
        self.help = run(["env", "HOME=%s" % self.home, self.repository / "tracectl-mount", "--help"]).stdout
        self.repository = self.repository.rename(self.room / "moved")

    def do(self, *words, folder=None):
        """What an installed command does: elsewhere, with what was to be set, with nothing of the repository, and with an rt that fails."""
        path = "%s:%s" % (self.room / "commands", os.environ["PATH"])
        unset = [word for name in ("PATH", "PYTHONPATH", "PYTHONDONTWRITEBYTECODE", "PYTHONPYCACHEPREFIX") for word in ("-u", name)]
        set_words = ["bash", "-c", 'eval "$1"; cd "$2"; exec "${@:3}"', "-", "\n".join(self.settings), folder or self.elsewhere]
        return run([*self.hiding, "env", *unset, "PATH=" + path, "HOME=%s" % self.home, *set_words, *words])


def tree_of(folder):
    """All that is below a folder, with a slash after what is a folder."""
    return sorted(str(path.relative_to(folder)) + ("/" if path.is_dir() and not path.is_symlink() else "") for path in folder.rglob("*"))


def manifest_of(folder):
    return (folder / "libexec/tracectl/manifest").read_text().splitlines()


def said_once(got, part, status=5):
    """What is wrong with what was to fail with one line that has this part."""
    said = got.stderr.decode()
    return [] if got.status == status and not got.stdout and said.startswith("install: ") and part in said and said.count("\n") == 1 else ["it is %s" % (got,)]


def installs(place):
    """All of it: what it says, and that the manifest has what is there, which others can read."""
    got = place.installed
    if got.status:
        return ["it failed: %s" % (got,)]
    lines = got.stdout.decode().splitlines()
    found = text_differences("standard error", got.stderr, b"")
    found += [] if lines[3:4] == ["installed in %s" % place.prefix] and len(lines) == 5 + len(place.settings) else ["it says %s" % lines]
    found += text_differences("the manifest", "\n".join(sorted(manifest_of(place.prefix))).encode(), "\n".join(tree_of(place.prefix)).encode())
    return found + ["%s can't be used by others" % path for path in place.prefix.rglob("*") if path.stat().st_mode & 0o5 != path.stat().st_mode >> 6 & 0o5]


def is_hidden(place):
    got = place.do("bash", "-c", 'ls "$1" "$2"/bin', "-", TOP, place.kit)
    return [] if not place.hiding or got.stdout == b"%s:\n" % str(TOP).encode() else ["it shows %s" % quoted(got.stdout)]


def tells_versions(place):
    """The same as in the repository."""
    found = [] if place.told == place.versions[:2] else ["./install says %s, and the starters %s" % (place.versions, place.told)]
    found += ["%s lacks the commit" % line for line in place.versions if place.commit and not line.endswith(", commit %s" % place.commit)]
    for name, line in zip(NAMES, place.versions):
        for option in ("--version", "-V"):
            found += differences(place.do(name.replace("_", "-"), option), Outcome(0, line.encode() + b"\n", b""))
    kind = place.do("pkg-config", "--variable=proof", "tracectl").stdout.decode().strip()
    number = place.do("pkg-config", "--modversion", "tracectl").stdout.decode().strip()
    want = "libtracectl %s, %s" % (number, kind)
    return found + ([] if number and place.versions[2].split(", commit")[0] == want else ["pkg-config says %s" % want])


def said_of(place, name):
    """What a starter says before its program does anything."""
    return UNPROVED % name if ", unproved" in place.versions[NAMES.index(name.replace("-", "_"))] else ""


def does_scripts(place):
    found = []
    for script in scripts_of(place.elsewhere):
        got = place.do("bash", "-c", 'tracectl "${@:2}" < "$1"', "-", script.name, *words_of(script))
        found += ["%s: %s" % (script.name, difference) for difference in differences(got, wanted(script)._replace(stderr=said_of(place, "tracectl").encode()))]
    return found


def starts_anywhere(place):
    """By its whole name, by a link, from other folders."""
    script = place.elsewhere / "first-session"
    link = place.room / "link"
    link.symlink_to(place.prefix / "bin" / "tracectl")
    want = wanted(script)._replace(stderr=said_of(place, "tracectl").encode())
    ways = ((link, "/"), (place.prefix / "bin" / "tracectl", place.home), ("prefix/bin/tracectl", place.room))
    return [difference for command, folder in ways for difference in differences(place.do(command, *words_of(script)[:-1], script, folder=folder), want)]


def has_documents(place):
    """Manual pages and completions are those of docs/, where they are looked for."""
    places = {".1": "man/man1/%s.1", ".bash": "bash-completion/completions/%s", ".zsh": "zsh/site-functions/_%s"}
    found = []
    for name in NAMES:
        for suffix, where in places.items():
            tool = name.replace("_", "-")
            installed = place.prefix / "share" / (where % tool)
            found += text_differences(str(installed), installed.read_bytes(), (TOP / "docs" / (tool + suffix)).read_bytes())
    return found


def is_not_proved(place):
    got = place.do("tracectl", "--prove")
    found = differences(got._replace(stderr=b""), Outcome(5, b"", b""))
    return found + ([] if got.stderr.startswith(b"tracectl: what is installed stays as it is") else ["it says %s" % quoted(got.stderr)])


def mount_helps(place):
    """As in the repository, by another name; wrong words, too, are told in it."""
    found = differences(place.do("tracectl-mount", "--help"), Outcome(0, place.help.replace(b"./tracectl-mount", b"tracectl-mount"), b""))
    got = place.do("tracectl-mount")
    return found + ([] if got.status == 2 and got.stderr.startswith(b"usage: tracectl-mount ") else ["without words: %s" % (got,)])


def mounts(place):
    """On a folder and in a namespace, where that can be."""
    if place.do("tracectl-mount", "--", "true").status:
        print("skipped: tracectl-mount, as nothing can be mounted here", flush=True)
        return []
    said = said_of(place, "tracectl-mount").encode()
    session = place.do("tracectl-mount", "--cpus", "1", "--", "bash", place.elsewhere / "mount" / "session")
    found = differences(session._replace(stderr=b""), Outcome(0, (place.elsewhere / "mount" / "session.stdout").read_bytes(), b""))
    if os.geteuid() == 0:
        found += differences(place.do("bash", "-c", ON_FOLDER), Outcome(0, b"tick: n=5\n" * 3, said * 2))
    return found


def builds_in_c(flags, has_shared):
    """The examples, with these flags for the compiler and for pkg-config."""

    def found_in(place):
        found = []
        for source in sorted((place.elsewhere / "c").glob("*.c")):
            build = '%s -O2 -Wall -Wextra -Werror %s -o "$1" "$1.c" $(pkg-config --cflags --libs %s tracectl) -pthread' % (os.environ.get("CC", "cc"), *flags)
            found += ["%s: %s" % (source.name, difference) for difference in differences(place.do("bash", "-c", build, "-", source.with_suffix("")), Outcome(0, b"", b""))]
            got, stdout = place.do(source.with_suffix("")), source.with_suffix(".stdout")
            want = stdout.read_bytes() if stdout.exists() else got.stdout  # what server.c prints clocks decide; tests/library looks at it
            found += ["%s: %s" % (source.name, difference) for difference in differences(got._replace(stdout=without_times(got.stdout)), Outcome(0, without_times(want), b""))]
            linked = b"%s/lib/libtracectl.so.0.4 " % str(place.prefix).encode() in place.do("ldd", source.with_suffix("")).stdout
            found += [] if linked == has_shared else ["%s is %slinked to the shared library" % (source.name, "" if linked else "not ")]
        return found

    return found_in


def links_statically(place):
    """Whether the C library is there as an archive, too."""
    probe = place.room / "probe.c"
    probe.write_text("int main(void) { return 0; }\n")
    return run([os.environ.get("CC", "cc"), "-static", "-o", place.room / "probe", probe]).status == 0


def builds_statically(place):
    """Of the archive alone, and without the C library's shared objects, where those are there as archives, too."""
    if not links_statically(place):
        print("skipped: -static, as there is no libc.a", flush=True)
        return []
    return builds_in_c(("-static", "--static"), False)(place)


def builds_as_the_header_says(place):
    """An example, by each command in tracectl.h, of which one needs the C library as an archive."""
    commands = re.findall(r"^ \* +cc (.*\bserver\.c\b.*)$", (place.prefix / "include/tracectl.h").read_text(), re.M)
    found = [] if len(commands) == 3 else ["there are %d" % len(commands)]
    for command in commands:
        if "-static" in command and not links_statically(place):
            continue
        words = command.replace("server.c", "switched.c").replace("PREFIX", str(place.prefix))
        got = place.do("bash", "-c", "%s -o server %s && ./server" % (os.environ.get("CC", "cc"), words), folder=place.elsewhere / "c")
        want = Outcome(0, (place.elsewhere / "c" / "switched.stdout").read_bytes(), b"")
        found += ["cc %s: %s" % (command, difference) for difference in differences(got, want)]
    return found


def runs_python(place):
    """Python keeps what it compiles beside the modules, which goes with them. The package names the library of the prefix."""
    got = place.do("python3", "-c", "from tracectl.installed import LIBRARY; print(LIBRARY)")
    found = differences(got, Outcome(0, b"%s/lib/libtracectl.so.0.4\n" % str(place.prefix).encode(), b""))
    for stdout in sorted((place.elsewhere / "python").glob("*.stdout")):
        script = stdout.with_suffix(".py")
        got = place.do("python3", script)
        found += ["%s: %s" % (script.name, difference) for difference in differences(got, Outcome(0, stdout.read_bytes(), b""))]
    return found + ([] if any("tracectl/__pycache__/tracer." in name for name in tree_of(place.prefix)) else ["nothing is kept"])


def replaces_older(place):
    """What only the older one has goes, with folders that were made for it; what is not its own stays."""
    manifest = place.prefix / "libexec/tracectl/manifest"
    for name in ("lib/python2.0/site-packages/tracectl.py", "bin/tracectl-old", "share/other"):
        (place.prefix / name).parent.mkdir(parents=True, exist_ok=True)
        (place.prefix / name).write_text("older\n")
    before = [name for name in tree_of(place.prefix) if "old" not in name and "python2" not in name]
    manifest.write_text(manifest.read_text() + "lib/python2.0/\nlib/python2.0/site-packages/\nlib/python2.0/site-packages/tracectl.py\nbin/tracectl-old\n")
    (place.prefix / "include/tracectl.h").write_text("older\n")
    (place.prefix / "bin/tracectl").unlink()
    found = differences(place.install("--prefix", place.prefix)._replace(stdout=b""), Outcome(0, b"", b""))
    found += [] if tree_of(place.prefix) == before else ["there are %s, expected %s" % (tree_of(place.prefix), before)]
    found += text_differences("the header", (place.prefix / "include/tracectl.h").read_bytes(), (TOP / "crates/tracectl_c/tracectl.h").read_bytes())
    return found + starts_anywhere_again(place)


def starts_anywhere_again(place):
    (place.room / "link").unlink()
    return starts_anywhere(place)


def leaves_the_library(place):
    """Without one no compiler is needed, and that of the older installation goes."""
    no_compiler = ["CC=%s" % (place.room / "none")]
    found = said_once(place.install("--prefix", place.prefix, settings=no_compiler), "none is needed for the library and was not found; --no-library leaves it out")
    got = place.install("--prefix", place.prefix, "--no-library", settings=no_compiler)
    found += differences(got._replace(stdout=b""), Outcome(0, b"", b""))
    found += [] if len(got.stdout.splitlines()) >= 3 and b"libtracectl" not in got.stdout else ["it says %s" % quoted(got.stdout)]
    return found + ["%s is there" % name for name in ("lib", "include") if (place.prefix / name).exists()]


def uninstalls(place):
    """What was installed goes, and what is not its own stays."""
    found = differences(place.install("--uninstall", "--prefix=%s" % place.prefix), Outcome(0, b"removed from %s\n" % str(place.prefix).encode(), b""))
    found += [] if tree_of(place.prefix) == ["share/", "share/other"] else ["there is %s" % tree_of(place.prefix)]
    found += said_once(place.install("--uninstall", "--prefix", place.prefix), "nothing is installed in %s: there is no libexec/tracectl/manifest" % place.prefix)
    (place.prefix / "share/other").unlink()
    (place.prefix / "share").rmdir()
    found += differences(place.install("--no-library", "--prefix", place.prefix)._replace(stdout=b""), Outcome(0, b"", b""))
    found += differences(place.install("--uninstall", "--prefix", place.prefix)._replace(stdout=b""), Outcome(0, b"", b""))
    return found + ([] if tree_of(place.prefix) == [] else ["there is %s" % tree_of(place.prefix)])


def says_which_is_proved(place):
    """A program that is proved and current is installed as such, another one as unproved, and each says so."""
    out, script = place.repository / "crates/tracectl/out", place.elsewhere / "first-session"
    program = shutil.copy(str(place.prefix / "libexec/tracectl/programs/tracectl"), str(place.room / "program"))
    kept = out.rename(place.room / "kept")
    found = []
    for name, kind, said in (("tracectl", "proved", b""), ("tracectl-unproved", "unproved", (UNPROVED % "tracectl").encode())):
        out.mkdir()
        shutil.copy(program, str(out / name))
        found += differences(place.install("--no-library", "--prefix", place.prefix)._replace(stdout=b""), Outcome(0, b"", b""))
        told = place.do("tracectl", "--version").stdout.decode()
        found += [] if re.search(r", %s(,|$)" % kind, told.strip()) else ["a program that is %s: %s" % (kind, told)]
        found += differences(place.do("tracectl", *words_of(script)[:-1], script), wanted(script)._replace(stderr=said))
        shutil.rmtree(str(out))
    kept.rename(out)
    return found


def fails_midway(place):
    """What is there when it fails the manifest has, so that it can be removed, and a half-made file is not left."""
    place.place_command("mv", 'case $* in */share/*) echo "mv: no room" >&2; exit 1 ;; esac; PATH=%s; exec mv "$@"' % os.environ["PATH"])
    settings = ["PATH=%s:%s" % (place.room / "commands", os.environ["PATH"])]
    found = said_once(place.install("--no-library", "--prefix", place.prefix, settings=settings), "install: no room")
    (place.room / "commands" / "mv").unlink()
    files = [name for name in tree_of(place.prefix) if not name.endswith("/")]
    found += [] if files and set(files) <= set(manifest_of(place.prefix)) else ["there are %s" % files]
    found += differences(place.install("--uninstall", "--prefix", place.prefix)._replace(stdout=b""), Outcome(0, b"", b""))
    return found + ([] if tree_of(place.prefix) == [] else ["there is %s" % tree_of(place.prefix)])


def keeps_what_is_not_its_own(place):
    """A file that no manifest has is left, and nothing is installed: a link into the repository, say."""
    own = place.prefix / "bin" / "tracectl"
    own.parent.mkdir(parents=True)
    own.symlink_to(place.repository / "tracectl")
    before = (place.repository / "tracectl").read_bytes()
    found = said_once(place.install("--no-library", "--prefix", place.prefix), "%s is there, and no ./install has put it there; remove it first" % own)
    found += [] if tree_of(place.prefix) == ["bin/", "bin/tracectl"] and own.is_symlink() and own.read_bytes() == before else ["there is %s" % tree_of(place.prefix)]
    own.unlink()
    own.parent.rmdir()
    return found


def heeds_destdir(place):
    """Files are below it, and tell of the prefix alone."""
    folder = place.room / "package"
    got = place.install("--prefix", "/usr", "--destdir", folder)
    found = differences(got._replace(stdout=b""), Outcome(0, b"", b""))
    found += [] if got.stdout.decode().splitlines()[3:] == ["installed in %s/usr" % folder] else ["it says %s" % quoted(got.stdout)]
    for path in folder.rglob("*"):
        if path.is_file() and str(place.room).encode() in path.read_bytes():
            found.append("%s has %s" % (path, place.room))
    text = (folder / "usr/lib/pkgconfig/tracectl.pc").read_text()
    found += [] if text.startswith("prefix=/usr\n") and "rpath" not in text else ["tracectl.pc is %s" % text]
    found += differences(run([folder / "usr/bin/tracectl", "--version"]), Outcome(0, place.versions[0].encode() + b"\n", b""))
    got = place.install("--uninstall", "--prefix", "/usr", "--destdir", folder)
    found += differences(got, Outcome(0, b"removed from %s/usr\n" % str(folder).encode(), b""))
    return found + ["%s is left" % name for name in tree_of(folder / "usr")]


def installs_for_a_user(place):
    """Below ~/.local, and bin may be a link."""
    local, elsewhere = place.home / ".local", place.home / "bin"
    local.mkdir()
    elsewhere.mkdir()
    (local / "bin").symlink_to(elsewhere)
    place.place_command("id", "echo 1000")
    user = ["PATH=%s:%s" % (place.room / "commands", os.environ["PATH"])]
    found = differences(place.install("--no-library", settings=user)._replace(stdout=b""), Outcome(0, b"", b""))
    found += differences(run([elsewhere / "tracectl", "--version"]), Outcome(0, place.versions[0].encode() + b"\n", b""))
    found += differences(place.install("--uninstall", settings=user), Outcome(0, b"removed from %s\n" % str(local).encode(), b""))
    found += said_once(place.install(settings=user + ["HOME="]), "HOME names no folder, so --prefix has to")
    return found + ([] if tree_of(local) == ["bin"] and not tree_of(elsewhere) else ["there is %s" % tree_of(place.home)])


def tells_what_is_wrong(place):
    """In one line, or by its usage; nothing is changed."""
    found = []
    for words in (["--nonsense"], ["extra"], ["--prefix"], ["--prefix="], ["--destdir"], ["--uninstall", "extra"]):
        found += ["%s: %s" % (words, difference) for difference in differences(place.install(*words), Outcome(2, b"", USAGE.encode()))]
    (place.room / "file").write_text("")
    found += said_once(place.install("--no-library", "--prefix", place.room / "file" / "below"), "Not a directory")
    found += said_once(place.install("--no-library", "--prefix", place.room / "a b"), "can't be a prefix")
    manifest = place.room / "odd" / "libexec/tracectl/manifest"
    manifest.parent.mkdir(parents=True)
    manifest.write_text("../file\n")
    found += said_once(place.install("--uninstall", "--prefix", place.room / "odd"), "lists ../file, which is not below the prefix")
    help_text = place.install("--help").stdout.decode()
    found += ["--help lacks %s" % part for part in ("--prefix DIR ", "--destdir DIR ", "--no-library ", "--uninstall ", "Exit status:") if part not in help_text]
    return found + ([] if (place.room / "file").exists() else ["it removed what is not below the prefix"])


def installing_cases(programs):
    reason = unusable()
    if reason:
        print("skipped: ./install, as %s" % reason, flush=True)
        return []
    place = Place(programs)

    def case(name, check):
        return Case(name, lambda _: check(place))

    if place.installed.status:
        return [case("./install", installs)]
    # In this order: the later ones change what is there.
    return [
        case("./install", installs),
        case("nothing of the repository can be seen", is_hidden),
        case("installed: --version", tells_versions),
        case("installed: the scripts of examples/", does_scripts),
        case("installed: where tracectl is started", starts_anywhere),
        case("installed: manual pages and completions", has_documents),
        case("installed: tracectl --prove", is_not_proved),
        case("installed: tracectl-mount --help", mount_helps),
        case("installed: tracectl-mount", mounts),
        case("installed: examples/c with the shared library", builds_in_c(("", ""), True)),
        case("installed: examples/c with the static library", builds_statically),
        case("installed: the commands of tracectl.h", builds_as_the_header_says),
        case("installed: examples/python", runs_python),
        case("./install: over an older one", replaces_older),
        case("./install --no-library", leaves_the_library),
        case("./install: a proved program and an unproved one", says_which_is_proved),
        case("./install --uninstall", uninstalls),
        case("./install: it fails midway", fails_midway),
        case("./install: over a file that is not its own", keeps_what_is_not_its_own),
        case("./install --destdir", heeds_destdir),
        case("./install, by an ordinary user", installs_for_a_user),
        case("./install: what is wrong", tells_what_is_wrong),
    ]
