"""The Python package, as pip installs it."""
import atexit
import importlib.util
import os
import re
import shutil
import subprocess
import sys
import tempfile
import textwrap
from pathlib import Path

from cases.running import TOP, Case, Outcome, differences, quoted, run, text_differences

PACKAGE = TOP / "python"
VERSION = re.compile(r'^const VERSION: &str = "(.*)";$', re.MULTILINE)
COUNTED = re.compile(rb"^Ran (\d+) tests? in ", re.MULTILINE)
SKIPPED = re.compile(r"""^.* \.\.\. skipped ['"](.*)['"]$""", re.MULTILINE)
SECONDS = 60


def unusable():
    """What there is not to install the package and to make the library, if anything."""
    compiler = os.environ.get("CC", "cc")
    for command in (compiler, "ar", "rt"):
        if not shutil.which(command):
            return "there is no %s" % command
    missing = [name for name in ("venv", "ensurepip") if not importlib.util.find_spec(name)]
    return "Python has no %s" % missing[0] if missing else None


class Place:
    """A folder with a virtual environment and the shared library."""

    def __init__(self):
        self.room = Path(tempfile.mkdtemp(prefix="python-package-"))
        atexit.register(shutil.rmtree, str(self.room))
        subprocess.run([str(TOP / "examples" / "c" / "build"), str(self.room)], check=True, stderr=subprocess.DEVNULL)
        subprocess.run([sys.executable, "-m", "venv", str(self.room / "venv")], check=True)
        self.python = self.room / "venv" / "bin" / "python"
        self.offline = ["unshare", "-n" if os.geteuid() == 0 else "-Urn"]
        if not shutil.which("unshare") or run([*self.offline, "true"]).status:
            print("skipped: pip with no network at all, as there are no namespaces here", flush=True)
            self.offline = []

    def do(self, *words, script=None, settings=None):
        """What Python in the virtual environment does, elsewhere than in the repository, with the library, or with other settings than that."""
        unset = [word for name in ("PYTHONPATH", "PYTHONHOME", "TRACECTL_LIBRARY", "PKG_CONFIG_PATH") for word in ("-u", name)]
        settings = ["TRACECTL_LIBRARY=%s" % (self.room / "libtracectl.so")] if settings is None else settings
        return run(["env", "-C", self.room, *unset, "PYTHONDONTWRITEBYTECODE=1", *settings, self.python, *words], script=script)

    def pip(self, *words):
        """What pip does without a network, and without settings of the user's."""
        settings = ["env", "-C", self.room, "-u", "PYTHONPATH", "PIP_CONFIG_FILE=/dev/null", "PYTHONDONTWRITEBYTECODE=1", "PIP_DISABLE_PIP_VERSION_CHECK=1"]
        return run([*self.offline, *settings, self.python, "-m", "pip", *words])

    def pip_installs(self, *words):
        got = self.pip("install", "--no-index", "--quiet", *words)
        return differences(got._replace(stdout=b"", stderr=b""), Outcome(0, b"", b"")) + ([] if not got.status else [quoted(got.stderr)])

    def folder(self):
        """Where what is imported as tracectl lies, and which version it says that it is."""
        told = self.do("-c", "import os, tracectl; print(os.path.dirname(tracectl.__file__)); print(tracectl.__version__)").stdout.decode().split("\n")
        return Path(told[0]), told[1:2]


def tree_of(folder):
    return {str(path.relative_to(folder)): path.read_bytes() for path in folder.rglob("*") if path.is_file() and path.suffix != ".pyc"}


def installs(place):
    """By pip, which changes nothing in the repository. What is installed is what is there."""
    before = tree_of(PACKAGE)
    found = place.pip_installs(PACKAGE)
    if found:
        return found
    found += [] if tree_of(PACKAGE) == before else ["python/ has %s" % sorted(set(tree_of(PACKAGE)) ^ set(before))]
    folder, _ = place.folder()
    found += [] if place.room in folder.parents else ["it is imported from %s" % folder]
    got, want = tree_of(folder), tree_of(PACKAGE / "tracectl")
    found += [] if got == want else ["%s is not as in the repository" % name for name in sorted(set(got) ^ set(want) or want)]
    return found + differences(place.pip("check")._replace(stdout=b""), Outcome(0, b"", b""))


def tells_version(place):
    """The programs' version is the package's, for pip and for who imports it."""
    want = VERSION.search((TOP / "crates" / "program_arguments" / "src" / "program.rt").read_text())[1]
    shown = place.pip("show", "tracectl").stdout.decode()
    found = [] if "\nVersion: %s\n" % want in shown else ["pip says %s, expected %s" % (quoted(shown), want)]
    return found + ([] if place.folder()[1] == [want] else ["it says %s, expected %s" % (place.folder()[1], want)])


def own_tests(place, file):
    """One of its files of tests."""
    got = place.do("-m", "unittest", "discover", "-v", "-s", PACKAGE / "tests", "-p", file.name)
    count = COUNTED.search(got.stderr)
    skipped = SKIPPED.findall(got.stderr.decode(errors="backslashreplace"))
    for reason in sorted(set(skipped)):
        print("skipped: %d of python/tests/%s: %s" % (skipped.count(reason), file.name, reason), flush=True)
    if got.status or not count or count[1] == b"0":
        return ["exit status %d: %s" % (got.status, line) for line in got.stderr.decode(errors="backslashreplace").splitlines() or ["nothing was told"]]
    return []


def does_readme(place):
    """The program of README.md prints what follows it there."""
    program, printed = re.search(r"\n\n((?:    .*\n|\n)+)\nprints\n\n((?:    .*\n)+)", (PACKAGE / "README.md").read_text()).groups()
    got = place.do("-", script=textwrap.dedent(program).encode())
    return differences(got, Outcome(0, textwrap.dedent(printed).encode(), b""))


def finds_library(place):
    """By pkg-config, if there is one, and beside its modules."""
    opens = "import tracectl, tracectl.library as library; tracectl.Tracer().close(); print(library.find_library())"
    found = []
    if shutil.which("pkg-config"):
        (place.room / "tracectl.pc").write_text("libdir=%s\nName: tracectl\nDescription: tracectl\nVersion: 0\n" % place.room)
        got = place.do("-c", opens, settings=["PKG_CONFIG_PATH=%s" % place.room])
        found += differences(got, Outcome(0, b"%s/libtracectl.so\n" % str(place.room).encode(), b""))
    else:
        print("skipped: the library by pkg-config, which is not there", flush=True)
    beside = place.folder()[0] / "libtracectl.so.0.4"
    shutil.copy(str(place.room / "libtracectl.so"), str(beside))
    found += differences(place.do("-c", opens, settings=[]), Outcome(0, b"%s\n" % str(beside).encode(), b""))
    beside.unlink()
    return found


# Prints of each structure of the header its size, and where its fields are.
LAID_OUT = """
#include <stdio.h>
#include "tracectl.h"
int main(void) { %s return 0; }
"""


def has_structures(place):
    """The structures of the package have the size, and the fields their places, that the C compiler gives those of tracectl.h."""
    told = place.do("-c", DESCRIBING).stdout.decode()
    words = re.findall(r"^(\w+) (\w+) \d+$", told, re.MULTILINE)
    asked = ['"%s %s %%zu\\n", %s' % (kind, name, "sizeof(%s)" % kind if name == "all" else "offsetof(%s, %s)" % (kind, name)) for kind, name in words]
    (place.room / "laid_out.c").write_text(LAID_OUT % " ".join("printf(%s);" % each for each in asked))
    build = [os.environ.get("CC", "cc"), "-I", TOP / "crates/tracectl_c", "-o", place.room / "laid_out", place.room / "laid_out.c"]
    found = differences(run(build), Outcome(0, b"", b"")) + ([] if len(words) > 15 else ["there are only %s" % words])
    return found or text_differences("the structures", told.encode(), run([place.room / "laid_out"]).stdout)


# Prints the same of the package.
DESCRIBING = """
import ctypes
from tracectl.structures import Handle, Settings, Value
for kind, structure in (("tracectl", Handle), ("tracectl_settings", Settings), ("tracectl_value", Value)):
    print(kind, "all", ctypes.sizeof(structure))
    for name, _ in structure._fields_:
        print(kind, name, getattr(structure, name).offset)
"""


def can_mount(place):
    folder = place.room / "probe"
    folder.mkdir(exist_ok=True)
    return not place.do("-c", "import sys, tracectl; tracectl.Tracer().mount(sys.argv[1])", folder).status


def asking(script):
    """What an example says that a shell may ask beside it. Only three records are waited for, and some requests are served before they are counted."""
    lines = re.findall("^    (.*)$", script.read_text().split('"""')[1], re.MULTILINE)
    text = "\n".join(["set -e", "until mountpoint -q DIR; do sleep 0.05; done", *lines]).replace("DIR", '"$1"')
    return re.sub("(?m)^cat trace_pipe.*$", "sed 3q trace_pipe", re.sub("(?m)^cat events", "sleep 1; cat events", text))


def mounts_example(place):
    """examples/python/mounted.py, and beside it the shell of which it speaks."""
    if not can_mount(place):
        print("skipped: examples/python/mounted.py, as nothing can be mounted here", flush=True)
        return []
    script, folder = TOP / "examples" / "python" / "mounted.py", place.room / "mounted"
    folder.mkdir()
    settings = {**os.environ, "TRACECTL_LIBRARY": str(place.room / "libtracectl.so"), "PYTHONDONTWRITEBYTECODE": "1"}
    with subprocess.Popen([str(place.python), str(script), str(folder)], env=settings, stderr=subprocess.PIPE) as server:
        try:
            told = run(["timeout", SECONDS, "bash", "-c", asking(script), "-", folder])
            second = place.do(script, folder)
        finally:
            server.terminate()
            said = server.communicate(timeout=SECONDS)[1]
    words = rb"# event histogram\n(.*\n)*\{ path: /login +\} hitcount: +\d+  us: +\d+\n(.*\n)*(\d+ \[00[01]\] \d+: request: us=\d{4,} path=\S+\n){3}"
    found = [] if told.status == 0 and re.fullmatch(words, told.stdout) else ["a shell beside it is told %s" % (told,)]
    found += differences(second, Outcome(1, b"", b"mounted.py: FolderBusy: something else is mounted on %s (status 213)\n" % bytes(folder)))
    return found + ([] if (server.returncode, said, os.listdir(str(folder))) == (0, b"", []) else ["it ends with %s" % ((server.returncode, said),)])


def python_with(module):
    """The Python that runs the tests, or another one that is found as python3, if it has a module."""
    others = [shutil.which("python3", path=folder) for folder in os.get_exec_path()]
    for python in [sys.executable, *filter(None, others)]:
        if not run(["env", "-u", "PYTHONPATH", python, "-c", "import " + module]).status:
            return python
    return None


def draws(place):
    """examples/python/histogram.py into a file, if there is a Python with matplotlib, which the virtual environment has not."""
    python = python_with("matplotlib")
    if not python:
        print("skipped: examples/python/histogram.py into a file, as there is no matplotlib", flush=True)
        return []
    settings = ["env", "PYTHONPATH=%s" % PACKAGE, "PYTHONDONTWRITEBYTECODE=1", "MPLCONFIGDIR=%s" % place.room]
    settings.append("TRACECTL_LIBRARY=%s" % (place.room / "libtracectl.so"))
    found = []
    for suffix, head in ((".png", b"\x89PNG"), (".svg", b"<?xml")):
        file = (place.room / "drawn").with_suffix(suffix)
        got = run([*settings, python, TOP / "examples" / "python" / "histogram.py", file])
        found += differences(got._replace(stderr=b""), Outcome(0, b"", b""))  # matplotlib says when it first looks for fonts
        found += [] if file.exists() and file.read_bytes().startswith(head) else ["nothing is drawn into %s" % file.name]
    return found


def installs_other_ways(place):
    """From an archive of its sources, and as what is edited in place."""
    backend = "import sys; sys.path.insert(0, sys.argv[1]); import backend; print(backend.build_sdist(sys.argv[2]))"
    archive = place.do("-c", backend, PACKAGE, place.room)
    found = differences(archive._replace(stdout=b""), Outcome(0, b"", b""))
    found += place.pip_installs("--target", place.room / "target", place.room / archive.stdout.decode().strip())
    found += [] if tree_of(place.room / "target" / "tracectl") == tree_of(PACKAGE / "tracectl") else ["from an archive it is another"]
    found += place.pip_installs("--force-reinstall", "--editable", PACKAGE)
    folder, _ = place.folder()
    found += [] if folder == PACKAGE / "tracectl" else ["what is edited in place is imported from %s" % folder]
    found += differences(place.pip("uninstall", "--quiet", "--yes", "tracectl")._replace(stderr=b""), Outcome(0, b"", b""))
    return found + ([] if place.do("-c", "import tracectl").status else ["it is there after it was removed"])


def has_types(place):
    """What mypy says of the package and the examples, if it is there. Only matplotlib may be without types."""
    python = python_with("mypy")
    if not python:
        print("skipped: types of the Python package, as there is no mypy", flush=True)
        return []
    (place.room / "mypy.ini").write_text("[mypy]\n[mypy-matplotlib.*]\nignore_missing_imports = True\n")
    settings = ["--config-file", place.room / "mypy.ini", "--cache-dir", place.room / "mypy", "--explicit-package-bases"]
    examples = sorted((TOP / "examples" / "python").glob("*.py"))
    got = run(["env", "MYPYPATH=%s" % PACKAGE, python, "-m", "mypy", "--strict", *settings, PACKAGE / "tracectl", *examples])
    return [] if not got.status else got.stdout.decode().splitlines() or [quoted(got.stderr)]


def packaging_cases():
    reason = unusable()
    if reason:
        print("skipped: the Python package, as %s" % reason, flush=True)
        return []
    place = Place()

    def case(name, check, *given):
        return Case(name, lambda _: check(place, *given))

    tests = [case("python/tests/" + file.name, own_tests, file) for file in sorted((PACKAGE / "tests").glob("test_*.py"))]
    # In this order: the last but one removes it.
    return [
        case("pip install ./python", installs),
        case("the package's version", tells_version),
        *tests,
        case("the library by pkg-config, and beside the package", finds_library),
        case("python/README.md", does_readme),
        case("examples/python/histogram.py FILE", draws),
        case("examples/python/mounted.py DIR", mounts_example),
        case("the package's structures", has_structures),
        case("the package from an archive, and edited in place", installs_other_ways),
        case("the package's types", has_types),
    ]
