"""The library for C and Python: its examples, calls of the Python package, and scripts of tests/rows done by it line by line, with the list of files
after them; also with the emissions by values in which each pair gives the field in its place its value."""
import atexit
import os
import re
import shutil
import subprocess
import sys
import tempfile
from itertools import zip_longest
from pathlib import Path

from cases.python_calls import python_cases
from cases.running import TOP, Case, Outcome, differences, quoted, run, text_differences
from cases.scripts import scripts_of, wanted, words_of
from cases.statuses import status_cases

LIBRARY = TOP / "crates" / "tracectl_c" / "out" / "libtracectl_c.a"
CASES = TOP / "tests" / "library_cases"
EXAMPLES = TOP / "examples" / "python"
PACKAGE = TOP / "python"
PARTS_IN_C = ("tracectl", "tracectl_mount", "tracectl_serve")
OPTIONS = {"--cpus": "cpus", "--pages": "pages", "--page-bytes": "page_bytes"}


def unusable():
    """What there is not to use the library by, if anything."""
    compiler = os.environ.get("CC", "cc")
    if not shutil.which(compiler):
        return "there is no C compiler %s" % compiler
    return None if shutil.which("rt") else "there is no rt"


def built():
    """A folder with the C programs and the shared object, which is removed at the end, and in it that of many threads under ThreadSanitizer, if any."""
    folder = Path(tempfile.mkdtemp())
    atexit.register(shutil.rmtree, str(folder))
    subprocess.run([str(TOP / "examples" / "c" / "build"), str(folder)], check=True)
    heap = Path(subprocess.run(["rt", "doc"], stdout=subprocess.PIPE, check=True).stdout.decode().strip()).parent / "c" / "liblibc_c.a"
    wrapped = {"memory": ["-Wl,--wrap=malloc,--wrap=realloc,--wrap=free"], "refused": ["-Wl,--wrap=malloc"]}
    for name in ("memory", "limits", "values", "refused", "explained", "threads", "copies", "wanted", "requests"):
        words = wrapped.get(name, []) + ["-I", LIBRARY.parent.parent, "-o", folder / name, CASES / (name + ".c"), folder / "libtracectl_c.a", heap, "-pthread"]
        subprocess.run([os.environ.get("CC", "cc")] + [str(word) for word in words], check=True)
    build_in_cpp(folder, heap)
    return folder, built_with_sanitizer(folder, heap)


def build_in_cpp(folder, heap):
    """wanted.c as C++, if there is a compiler."""
    compiler = os.environ.get("CXX", "c++")
    if not shutil.which(compiler):
        print("skipped: the header in C++, as there is no C++ compiler %s" % compiler, flush=True)
        return
    words = [compiler, "-x", "c++", "-std=c++11", "-I", LIBRARY.parent.parent, "-o", folder / "wanted_in_cpp", CASES / "wanted.c", "-x", "none"]
    subprocess.run([str(word) for word in [*words, folder / "libtracectl_c.a", heap, "-pthread"]], check=True)


def built_with_sanitizer(folder, heap):
    """The programs of several threads, of which ThreadSanitizer sees what is written in C: the proved part lies in a shared object, of which it sees
    nothing. There are none where the compiler has no sanitizer."""
    compiler, archive, proved = os.environ.get("CC", "cc"), folder / "proved.a", folder / "libproved.so"
    shutil.copy(str(folder / "libtracectl_c.a"), str(archive))
    subprocess.run(["ar", "d", str(archive), *[part + ".o" for part in PARTS_IN_C]], check=True)
    words = [compiler, "-shared", "-o", proved, "-Wl,--whole-archive", archive, "-Wl,--no-whole-archive", heap]
    subprocess.run([str(word) for word in words], check=True)
    programs = {}
    fewer = {"threads": ["EMISSIONS=5000", "COMING=2000"], "copies": ["EMISSIONS=5000"], "wanted": ["SWITCHES=12500"], "requests": ["REQUESTS=2000"]}
    for name, sizes in fewer.items():
        programs[name] = folder / (name + "_sanitized")
        words = [compiler, "-fsanitize=thread", "-g", "-O1", *["-D" + size for size in sizes], "-I", LIBRARY.parent.parent, "-o", programs[name]]
        words += [CASES / (name + ".c"), *[LIBRARY.parent.parent / (part + ".c") for part in PARTS_IN_C], proved, "-Wl,-rpath," + str(folder), "-pthread"]
        if subprocess.run([str(word) for word in words], stderr=subprocess.DEVNULL).returncode:
            print("skipped: ThreadSanitizer, which %s does not have" % compiler, flush=True)
            return {}
    return programs


def settings_of(words):
    """The settings that the words of a script say, or nothing if they say more than that."""
    if words[-1] != "-" or any(word not in OPTIONS for word in words[:-1:2]):
        return None
    return {OPTIONS[word]: int(value) for word, value in zip(words[:-1:2], words[1:-1:2])}


def has_lines_alone(script):
    """Whether a script can be done line by line: it has no parallel part, and no byte 0, which the Python package refuses."""
    text = script.read_bytes()
    return settings_of(words_of(script)) is not None and b"parallel" not in text and b"\0" not in text


def is_plain(script):
    """Whether a script has no parallel part, and nothing in it is refused."""
    return has_lines_alone(script) and wanted(script).status == 0


def fields_of(tracer, event):
    """The names of an event's fields, which its format shows after that of the process."""
    lines = tracer.read(b"events/synthetic/%s/format" % event).split(b"\n")
    declared = [line[len(b"\tfield:") :].split(b";")[0] for line in lines if line.startswith(b"\tfield:")]
    return [words.split()[-1].split(b"[")[0] for words in declared[1:]]


def value_of(text):
    """A value that a script writes: a number where that has this text, or bytes."""
    return int(text) if re.fullmatch(rb"0|-?[1-9][0-9]*", text) else text


def emit_by_values(tracer, line):
    """Does a line by values, if it is an emission without quotes whose pairs name all fields in order of declaration. Has whether it is."""
    words = line.split()
    if words[:1] != [b"emit"] or any(quote in line for quote in b"'\""):
        return False
    cpu, process, event = int(words[1]), int(words[2]), words[3]
    pairs = [word.partition(b"=") for word in words[4:]]
    if [name for name, _, _ in pairs] != fields_of(tracer, event):
        return False
    tracer.emit_values(tracer.number_of(event), *[value_of(text) for _, _, text in pairs], cpu=cpu, process=process)
    return True


def by_lines(tracer_of, script, does_another_way):
    """What a script's lines reply, one after another, and which files are listed after them. A line may be done another way, which has no reply."""
    with tracer_of(**settings_of(words_of(script))) as tracer:
        lines = script.read_bytes().split(b"\n")
        return b"".join(b"" if does_another_way(tracer, line) else tracer.line(line) for line in lines), tracer.files().encode()


def called(program, tracer_of, script, does_another_way=lambda tracer, line: False):
    """That calls reply to a script's lines as the program does, and list the files that it lists."""
    replies, files = by_lines(tracer_of, script, does_another_way)
    listed = run([program, "--list"] + words_of(script), script=script.read_bytes()).stdout
    return text_differences("replies", replies, wanted(script).stdout) + text_differences("replies and the list", replies + files, listed)


QUOTED = "quoted_name_with_a_word_too_many"  # for which a call has other words, as the name of its command has quotes


def explained_by_lines(tracer_of, refusals, script):
    """The name and the sentence of each refused line of a script, by its number, up to the first fault, which ends a script."""
    told = []
    with tracer_of(**settings_of(words_of(script))) as tracer:
        for number, line in enumerate(script.read_bytes().split(b"\n"), 1):
            try:
                tracer.line(line)
            except refusals as refused:
                told.append((number, refused.name, refused.explanation))
                if refused.status > 100:
                    break
    return told


NO_TABLE = "the event's `trigger` lists none with this name, keys, values, sort and filter"


def by_calls(number, name, words):
    """What calls say of a line of which `--explain` alone says this: it knows what only a mount or a kernel has, and how a trigger was written."""
    if re.match("only a mounted tracer has |.* (is|are) left out: ", words) and name == "NoSuchFile":
        words = "no file has this path"
    elif words == NO_TABLE:
        words = "expected `>>` and a trigger that the event's `trigger` lists, with its name, keys, values, sort and filter"
    return number, name, words


def explained(program, tracer_of, refusals, script):
    """That calls explain a script's refused lines as `tracectl --explain` does."""
    told = run([program, "--explain"] + words_of(script), script=script.read_bytes()).stderr.decode()
    want = [by_calls(int(number), name, words) for number, name, words in re.findall(r"^\S*?:(\d+)(?::\d+)?: (\w+): (.*)$", told, re.MULTILINE)]
    got = explained_by_lines(tracer_of, refusals, script)
    return ["explains %s, and the program %s" % pair for pair in zip_longest(got, want) if pair[0] != pair[1]]


def without_times(histograms):
    """A text of histograms without what clocks decide: one row in place of those of each, with the sum of their hits, and no number of entries."""
    lines = []
    for line in histograms.splitlines():
        row = re.fullmatch(rb"\{ (\w+): .* \} hitcount: +(\d+)", line)
        if row:
            before = lines.pop()[1] if lines and isinstance(lines[-1], tuple) else 0
            lines.append((row[1], before + int(row[2])))
        else:
            lines.append(re.sub(rb"Entries: \d+", b"Entries", line))
    return b"".join(b"%s: %d\n" % line if isinstance(line, tuple) else line + b"\n" for line in lines)


def timed_case(name, command, stdout):
    """That a program prints what a file has, but for what clocks decide."""

    def found(_):
        got = run(command)
        return differences(got._replace(stdout=without_times(got.stdout)), Outcome(0, without_times(stdout.read_bytes()), b""))

    return Case(name, found)


SERVED = re.compile(
    rb"How many requests took up to so many microseconds:\n(\{ us: +~ 2\^\d+ \} hitcount: +\d+\n)+    Hits: 300\n"
    rb"The first slow one, and what came before it:\n(\d+ \[00[0-3]\] \d+: request: at=\d+ us=\d+ path=\S+\n){0,3}\d+ .* us=(\d+) path=\S+\n"
    rb"The last slow ones:\n(?:\d+ \[00[0-3]\] \d+: request: at=\d+ us=\d+ path=\S+\n){3}"
)


def served(program):
    """What is wrong with what examples/c/server.c prints of 300 requests. Which of them are slow a clock decides."""
    got = run([program, "-", "300"])
    found = SERVED.fullmatch(got.stdout)
    if got.status or got.stderr or not found or int(found[3]) < 5_000:
        return ["%s %s %s" % (got.status, quoted(got.stdout), quoted(got.stderr))]
    return []


def example_case(name, command, folder, stdout):
    settings = ["env", "PYTHONDONTWRITEBYTECODE=1", "PYTHONPATH=%s" % PACKAGE, "TRACECTL_LIBRARY=%s" % (folder / "libtracectl.so")]
    return Case(name, lambda _: differences(run(settings + command), Outcome(0, stdout.read_bytes(), b"")))


def library_cases():
    reason = unusable()
    if reason:
        print("skipped: the library for C and Python, as %s" % reason, flush=True)
        return []
    folder, sanitized = built()
    sys.path.insert(0, str(PACKAGE))
    from tracectl import Refused, Tracer

    def tracer_of(**settings):
        return Tracer(library=str(folder / "libtracectl.so"), **settings)

    def sanitized_case(name, program):
        """Its threads, or requests, are fewer, or ask less often."""
        text = (CASES / (name + ".stdout")).read_bytes()
        wanted_text = re.sub(rb"requests: \d+", b"requests: 2000", re.sub(rb"\d+ threads", b"2000 threads", text))
        command = ["env", "TSAN_OPTIONS=ignore_noninstrumented_modules=1", program]
        return Case("tests/library_cases/%s.c under ThreadSanitizer" % name, lambda _: differences(run(command), Outcome(0, wanted_text, b"")))

    def script_case(script):
        return Case("by calls: " + script.name, lambda program: called(program, tracer_of, script))

    def explained_case(script):
        return Case("explained by calls: " + script.name, lambda program: explained(program, tracer_of, Refused, script))

    def values_case(script):
        return Case("by values: " + script.name, lambda program: called(program, tracer_of, script, emit_by_values))

    scripts = [script for script in scripts_of(TOP / "tests" / "rows") if is_plain(script)]
    cases = [
        example_case("examples/c/million.c", [folder / "million"], folder, TOP / "examples" / "c" / "million.stdout"),
        timed_case("examples/c/durations.c", [folder / "durations"], TOP / "examples" / "c" / "durations.stdout"),
        example_case("tests/library_cases/memory.c", [folder / "memory"], folder, CASES / "memory.stdout"),
        example_case("tests/library_cases/limits.c", [folder / "limits"], folder, CASES / "limits.stdout"),
        example_case("tests/library_cases/values.c", [folder / "values"], folder, CASES / "values.stdout"),
        example_case("tests/library_cases/refused.c", [folder / "refused"], folder, CASES / "refused.stdout"),
        example_case("tests/library_cases/explained.c", [folder / "explained"], folder, CASES / "explained.stdout"),
        example_case("tests/library_cases/threads.c", [folder / "threads"], folder, CASES / "threads.stdout"),
        example_case("tests/library_cases/copies.c", [folder / "copies"], folder, CASES / "copies.stdout"),
        example_case("tests/library_cases/wanted.c", [folder / "wanted"], folder, CASES / "wanted.stdout"),
        example_case("tests/library_cases/requests.c", [folder / "requests"], folder, CASES / "requests.stdout"),
        example_case("examples/c/four_threads.c", [folder / "four_threads"], folder, TOP / "examples" / "c" / "four_threads.stdout"),
        example_case("examples/c/switched.c", [folder / "switched"], folder, TOP / "examples" / "c" / "switched.stdout"),
        Case("examples/c/server.c", lambda _: served(folder / "server")),
    ]
    for stdout in sorted(EXAMPLES.glob("*.stdout")):
        script = stdout.with_suffix(".py")
        cases.append(example_case("examples/python/" + script.name, [sys.executable, script], folder, stdout))
    if (folder / "wanted_in_cpp").exists():
        cases.append(example_case("tests/library_cases/wanted.c in C++", [folder / "wanted_in_cpp"], folder, CASES / "wanted.stdout"))
    cases += [sanitized_case(name, program) for name, program in sanitized.items()]
    cases += python_cases(folder / "libtracectl.so") + status_cases(folder / "libtracectl.so")
    refusing = [script for script in scripts_of(TOP / "tests" / "rows") if has_lines_alone(script) and wanted(script).status != 0 and script.name != QUOTED]
    cases += list(map(explained_case, refusing))
    return cases + list(map(script_case, scripts)) + [values_case(script) for script in scripts if b"\nemit " in script.read_bytes()]
