"""./check, over tests that only print."""
import os
import shutil
import tempfile
from pathlib import Path

from cases.running import TOP, Case, Outcome, differences, run
from cases.words import named

CHECKED = "echo \"%s $* RT_JOBS=$RT_JOBS $TRACECTL_PROGRAM\"\necho '%d passed, %d failed'\nexit %d"
# What is proved ahead, run by run.
AHEAD = (
    "trace_lex", "fuse_wire fuse_serve", "ticket_lock trace_snapshot", "trace_snapshot", "hist_entries", "record_text", "trace_filter", "trace_trigger", "trace_hist", "trace_text",
    "tracer_specification", "trace_instance", "trace_book", "refusal_explanations file_list command_log script_reader parallel_output program_arguments", "trace_session error_log",
    "tracectl_mount", "tracectl",
)
CRATES = [*dict.fromkeys(" ".join(AHEAD).split()), "session_laws"]
CHECK_USAGE = b"usage: ./check [--quick | --planted [CRATE..] | --help]\n"


def checked(words, commands, settings=(), by=None):
    """What ./check does with these words where each of these commands, by its name, is a shell script of these lines. `rt` is found by PATH."""
    with tempfile.TemporaryDirectory() as top:
        for folder in ("tests", "commands", "tools", "crates/tracectl/out", "crates/tracectl_mount/out"):
            (Path(top) / folder).mkdir(parents=True)
        shutil.copy(str(TOP / "check"), top)
        for name in ("programs.bash", "building.bash"):
            shutil.copy(str(TOP / "tools" / name), str(Path(top) / "tools"))
        (Path(top) / "crates.txt").write_text("".join("%s:\n" % crate for crate in CRATES))
        (Path(top) / "HANDLES").write_text("")
        os.utime(str(Path(top) / "crates.txt"), (0, 0))
        link = Path(top) / "commands" / "link"
        link.symlink_to(Path(top) / "check")
        for name, lines in commands.items():
            file = Path(top) / (name if "/" in name else "commands/%s" % name)
            file.write_text("#!/bin/sh\n%s\n" % lines)
            file.chmod(0o755)
        path = "%s:%s" % (Path(top) / "commands", "/usr/bin:/bin")
        command = {None: [Path(top) / "check"], "link": [link], "relative": [os.path.relpath(top) + "/check"]}[by]
        return run(["env", "-u", "RT_JOBS", "-u", "TRACECTL_PROGRAM", "PATH=" + path] + list(settings) + command + words)


def gate(user, has, status=0):
    """What .ci/run calls apt-get with, without its options, for this user where these commands are there and apt-get has this status; and its outcome."""
    with tempfile.TemporaryDirectory() as top:
        commands, calls = Path(top) / "commands", Path(top) / "calls"
        for folder in (commands, Path(top) / ".ci"):
            folder.mkdir()
        shutil.copy(str(TOP / ".ci" / "run"), str(Path(top) / ".ci"))
        for name in ("bash", "env", "timeout", "dirname"):
            (commands / name).symlink_to(shutil.which(name))
        lines = {"commands/id": "echo %d" % user, "commands/apt-get": "echo \"$*\" >> '%s'; exit %d" % (calls, status), "check": "echo checked"}
        for name, text in dict(lines, **{"commands/%s" % name: "exit 0" for name in has}).items():
            (Path(top) / name).write_text("#!/bin/bash\n%s\n" % text)
            (Path(top) / name).chmod(0o755)
        got = run(["env", "PATH=%s" % commands, Path(top) / ".ci" / "run"])
        called = [line.split() for line in (calls.read_text().splitlines() if calls.exists() else [])]
        return sorted(words[-1] for words in called), got


def installs(_):
    """.ci/run installs what the tests want and what is missing, if it is root's, and checks in any case."""
    every = ["busybox", "cc", "fusermount3", "groff", "pkg-config", "python3", "rsync", "strace", "trace-cmd", "zsh"]
    packages = ["busybox-static", "fuse3", "gcc", "groff-base", "libc6-dev", "libtraceevent-dev", "libtracefs-dev", "pkg-config", "python3", "python3-venv", "rsync", "strace", "trace-cmd", "zsh"]
    wanted = (
        (gate(0, []), packages + ["update"]),
        (gate(0, every), []),
        (gate(0, [name for name in every if name != "strace"]), ["strace", "update"]),
        (gate(0, [], 100), ["update"]),
        (gate(1000, []), []),
    )
    found = [difference for (_, got), _ in wanted for difference in differences(got, Outcome(0, b"checked\n", b""))]
    return found + ["apt-get is called with %s, expected %s" % (called, want) for (called, _), want in wanted if called != sorted(want)]


def check_cases():
    counts = {
        **{"tests/program": 20, "tests/threads": 3, "tests/program_without_memory": 10, "tests/rattle_tests": 29, "tests/planted": 5, "tests/archive": 1},
        **{"tests/unproved_program": 7, "tests/library": 4, "tests/kernel_requests": 2, "tests/walk": 4, "tests/real_mount": 6, "tests/streams": 5},
        **{"tests/tracefs_clients": 8, "tests/watch": 9, "tests/timeline": 10, "tests/installed": 11, "tests/python_package": 12, "tests/newcomer": 13},
        **{"tests/recording": 14, "tests/preload": 15, "tests/mounted_program": 16, "tests/raw_pages": 17},
    }
    tests = {name: CHECKED % (name, count, 0, 0) for name, count in counts.items()}
    whole = dict(tests, rt=CHECKED % ("rt", 100, 0, 0))

    def case(name, words, commands, parts, status, settings=(), by=None, stderr=b"", last=None, lacks=None):
        def right(_):
            got = checked(words, commands, settings, by)
            found = differences(got._replace(stdout=b"", stderr=b""), Outcome(status, b"", b""))
            found += [] if stderr is None or got.stderr == stderr else ["standard error is %s" % got.stderr]
            found += ["standard output lacks %s: %s" % (part, got.stdout) for part in parts if part.encode() not in got.stdout]
            found += ["standard output has %s: %s" % (lacks, got.stdout)] if lacks and lacks.encode() in got.stdout else []
            return found + ([] if last is None or got.stdout.endswith(last) else ["standard output is %s" % got.stdout])

        return Case("./check: " + name, right)

    skipped = {"tests/tracefs_clients": "a, as b", "tests/real_mount": "all"}
    skipping = dict(whole, **{name: "echo 'skipped: %s'\n%s" % (why, tests[name]) for name, why in skipped.items()})
    jobs = ["RT_JOBS=3"]
    each = ["rt ci RT_JOBS=3", "tests/archive  RT_JOBS=3", "tests/program  RT_JOBS=3", "tests/threads ", "tests/program_without_memory "]
    each += ["tests/rattle_tests ", "tests/unproved_program ", "tests/library ", "tests/installed ", "tests/python_package ", "tests/newcomer ", "tests/recording "]
    each += ["tests/preload ", "tests/mounted_program ", "tests/raw_pages "]
    no_rt = b"check: rt, the command of the Rattle kit, is needed and was not found\n"
    little = b"check: 1953 MiB of memory are free, which may be too little: up to 4096 are needed\n"
    elsewhere = ["CDPATH=.:/", "TMPDIR=/no/such/folder"] + jobs
    proved = dict(tests, **{"crates/%s/out/%s" % (crate, crate): "" for crate in ("tracectl", "tracectl_mount")})
    compiled = dict(whole, **{"tools/unproved.py": "touch $2"})
    half = dict(compiled, **{"crates/tracectl/out/tracectl": ""})
    unproved = "(nothing of the programs is proved)\n"
    telling = "echo \"rt: $(cut -d: -f1 crates.txt | tr '\\n' ' ')proved\"\necho '%s100 passed, 0 failed'"
    keeping, forgetting = telling % "done in this run: 1 of the 1 proofs\n", telling % ""
    ahead = [" min: %s proved\n" % crates for crates in (*AHEAD, " ".join(CRATES))]
    return [
        case("all of it", [], whole, each, 0, jobs, last=b"\n316 passed, 0 failed\n"),
        case("all of it, and rt shares the processors", [], whole, ["rt ci RT_JOBS= "], 0, last=b"\n316 passed, 0 failed\n"),
        case("all of it, and the chain is proved ahead", [], dict(tests, rt=keeping, awk="echo 20000000"), ahead, 0, last=b"\n316 passed, 0 failed\n"),
        case("all of it, and what is proved ahead is not kept", [], dict(tests, rt=forgetting, awk="echo 20000000"), [ahead[0], ahead[-1]], 0, last=b"\n316 passed, 0 failed\n"),
        case("all of it, and little of its memory is free", [], dict(tests, rt=keeping, awk="echo 9000000"), ahead[-1:], 0, last=b"\n316 passed, 0 failed\n", lacks=ahead[0]),
        case("all of it, by RT_JOBS, which proves nothing ahead", [], dict(tests, rt=keeping, awk="echo 20000000"), ahead[-1:], 0, jobs, last=b"\n316 passed, 0 failed\n", lacks=ahead[0]),
        case("by a link, with a CDPATH and a TMPDIR that isn't there", [], whole, each, 0, elsewhere, "link", last=b"\n316 passed, 0 failed\n"),
        case("by a relative path, likewise", [], whole, each, 0, elsewhere, "relative", last=b"\n316 passed, 0 failed\n"),
        case("a test that fails", [], dict(whole, **{"tests/threads": CHECKED % ("", 2, 1, 1)}), [], 1, jobs, last=b"\n315 passed, 1 failed\n"),
        case("a gate that fails by its status alone", [], dict(whole, rt=CHECKED % ("rt", 100, 0, 1)), [], 1, jobs, last=b"\n316 passed, 1 failed\n"),
        case("what is skipped is told at the end", [], skipping, [], 0, jobs, last=b" ended\ntests/real_mount skipped all\ntests/tracefs_clients skipped a, as b\n316 passed, 0 failed\n"),
        case("a test that prints no counts", [], dict(whole, **{"tests/program": "echo nothing"}), [], 1, jobs, last=b"\n296 passed, 1 failed\n"),
        case("quickly, with a proved program", ["--quick"], proved, ["/crates/tracectl/out/tracectl\n"], 0, last=b"\n179 passed, 0 failed (the programs are proved)\n"),
        case("quickly, with an unproved program", ["--quick"], compiled, ["/tracectl-unproved\n"], 0, stderr=None, last=b"\n179 passed, 0 failed " + unproved.encode()),
        case("quickly, with one proved program", ["--quick"], half, ["/out/tracectl\n"], 0, stderr=None, last=b"\n179 passed, 0 failed (one of the two programs is not proved)\n"),
        case("quickly, and it can't be compiled", ["--quick"], dict(whole, **{"tools/unproved.py": "exit 1"}), [], 1, stderr=None, last=b"0 passed, 1 failed\n"),
        case("quickly, with nothing to compile by", ["--quick"], tests, [], 2, stderr=no_rt, last=b""),
        case("planted bugs of two crates", ["--planted", "page_ring", "trace_hist"], whole, ["tests/planted page_ring trace_hist RT_JOBS= \n"], 0),
        case("planted bugs of a crate, by RT_JOBS", ["--planted", "page_ring"], whole, ["tests/planted page_ring RT_JOBS=3"], 0, jobs),
        case("help", ["--help"], {}, [CHECK_USAGE.decode(), "--quick", "--planted"], 0),
        case("little memory", [], dict(whole, awk="echo 2000000"), ["rt ci RT_JOBS= \n"], 0, stderr=little),
        case("no rt", [], tests, [], 2, stderr=no_rt, last=b""),
        Case(".ci/run: what it installs", installs),
        case("planted bugs, and no rt", ["--planted"], tests, [], 2, stderr=no_rt, last=b""),
    ] + [case(named(words), words, whole, [], 2, stderr=CHECK_USAGE, last=b"") for words in (["--nonsense"], ["all"], [""], ["--quick", "all"], ["--help", "me"])]
