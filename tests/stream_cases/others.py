"""What else was found with real programs: when a trace is emptied, what is removed, what a folder lists, and who may do what."""
import errno
import os
import subprocess

from stream_cases.place import INJECT, PLACE, TICK, Skipped, declare, emit, errno_of, get, need, numbers, put, resident, script

TURNS, MOST_GROWN = 1_000, 64 * 1024
NOBODY = ["setpriv", "--reuid", "65534", "--regid", "65534", "--clear-groups", "--"]


def begin():
    declare()


def emptied_at_the_open():
    """What comes between open and close is kept."""
    emit([1])
    script('exec 3> "$1/trace"; echo n=77 > "$1/$2"; exec 3>&-', PLACE, INJECT)
    assert numbers(get("trace")) == [77]
    script(': > "$1/trace"', PLACE)
    assert numbers(get("trace")) == []
    script('exec 3> "$1/trace"; sleep 0.3 & exec 3>&-; echo n=78 > "$1/$2"; wait', PLACE, INJECT)
    assert numbers(get("trace")) == [78], "it was emptied when a child ended"
    script('echo > "$1/trace"; echo n=79 > "$1/$2"; : > "$1/per_cpu/cpu0/trace"; echo n=80 > "$1/$2"', PLACE, INJECT)
    assert numbers(get("trace")) == [80]
    with open(PLACE / "trace", "w") as file:
        emit([81])
        file.write("\n")
    assert numbers(get("trace")) == [81]


def nothing_of_what_is_removed():
    os.mkdir(PLACE / "instances/a")
    put("instances/a/" + TICK + "enable", "1\n")
    emit(range(3))
    assert errno_of(put, "instances/a/tracing_on", "x\n") == errno.EINVAL
    reads, writes = [], []
    for folder, _, names in os.walk(PLACE / "instances/a"):
        for name in names:
            for flags, files in ((os.O_RDONLY | os.O_NONBLOCK, reads), (os.O_WRONLY, writes)):
                try:
                    files.append((os.open(os.path.join(folder, name), flags), name))
                except PermissionError:
                    pass
    begun = [file for file, name in reads if os.read(file, 5)]
    assert len(begun) > 20 and len(writes) > 15
    os.rmdir(PLACE / "instances/a")
    for file, name in reads:
        for _ in range(2):
            assert errno_of(os.read, file, 100) == errno.ENOENT, "a read of %s" % name
            if name not in ("trace_pipe", "trace_pipe_raw"):
                os.lseek(file, 0, os.SEEK_SET)
    for file, name in writes:
        assert errno_of(os.write, file, b"1\nx\n") == errno.ENOENT, "a write to %s" % name
    for file, _ in reads + writes:
        errno_of(os.close, file)
    assert get("error_log") == b""


def errors_of_what_is_gone():
    """`mkdir; exec 3> tracing_on; rmdir; 8 refused writes; close`, again and again."""

    def turn():
        os.mkdir(PLACE / "instances/a")
        file = os.open(PLACE / "instances/a/tracing_on", os.O_WRONLY | os.O_TRUNC)
        os.rmdir(PLACE / "instances/a")
        for _ in range(8):
            assert errno_of(os.write, file, b"x\n")
        os.close(file)

    for _ in range(TURNS // 10):
        turn()
    before = resident()
    for _ in range(TURNS):
        turn()
    assert resident() - before <= MOST_GROWN, "%d turns grew the server by %d bytes" % (TURNS, resident() - before)


def folders_list_themselves():
    shown = script('cd "$1" && ls -a && ls -a instances events/synthetic', PLACE).decode()
    for part in shown.split("\n\n"):
        lines = [line for line in part.split("\n") if not line.endswith(":")]
        assert lines[:2] == [".", ".."], part
    need("find")
    script('find "$1" > /dev/null && ls -la "$1" > /dev/null && du "$1" > /dev/null', PLACE)


def sizes_are_listed():
    emit(range(30))
    shown = script('ls -l "$1"', PLACE).decode().split("\n")
    sizes = {line.split()[-1]: int(line.split()[4]) for line in shown if line.startswith("-")}
    assert sizes["trace"] == len(get("trace")) > 500 and sizes["tracing_on"] == 2 and sizes["README"] == len(get("README")), sizes


CASES = (emptied_at_the_open, nothing_of_what_is_removed, errors_of_what_is_gone, folders_list_themselves, sizes_are_listed)


# ---- who may do what: by `allow_other`, `default_permissions` and `--mode`


def by_nobody(text):
    """The status of a script that another user runs."""
    if os.geteuid() or script("cat /proc/self/uid_map").split()[:3] != [b"0", b"0", b"4294967295"]:
        raise Skipped("it takes root")
    need("setpriv")
    ran = subprocess.run([*NOBODY, "sh", "-c", text, "-", str(PLACE), INJECT], stdin=subprocess.DEVNULL, stdout=subprocess.PIPE, stderr=subprocess.STDOUT)
    return ran.returncode, ran.stdout.decode()


def nobody_may():
    assert by_nobody('echo n=5 > "$1/$2" && cat "$1/trace" && echo 0 > "$1/tracing_on" && mkdir "$1/instances/a"')[0] == 0
    assert numbers(get("trace")) == [5] and get("tracing_on") == b"0\n" and os.listdir(PLACE / "instances") == ["a"]


def nobody_may_not():
    status, said = by_nobody('cd "$1" || echo n=5 > "$1/$2" || cat "$1/trace" || ls "$1" || cat "$1/trace_pipe"')
    assert status and "n=5" not in said and said.lower().count("permission denied") == 4, "the status is %d: %s" % (status, said)
    assert numbers(get("trace")) == []
    emit([1])
    assert numbers(get("trace")) == [1]


def nobody_may_read():
    status, said = by_nobody('cat "$1/trace" && ls "$1" && ! echo n=5 > "$1/$2" && ! echo 0 > "$1/tracing_on" && ! mkdir "$1/instances/a"')
    assert status == 0 and said.lower().count("permission denied") == 3, "the status is %d: %s" % (status, said)


ALL_MAY, NONE_MAY, ALL_READ = (nobody_may,), (nobody_may_not,), (nobody_may_read,)
