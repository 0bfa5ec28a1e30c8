"""Where a tracer is mounted, and what the cases do with it. TRACER is the folder, SERVER the process that serves it, ROOM a folder for files."""
import os
import re
import shutil
import subprocess
import time
from pathlib import Path

PLACE, ROOM = Path(os.environ.get("TRACER", "/")), Path(os.environ.get("ROOM", "/"))
SERVER = os.environ.get("SERVER", "")
CLIENTS = Path(__file__).resolve().parent.parent / "stream_clients"
TICK = "events/synthetic/tick/"
INJECT = TICK + "inject"
SECONDS = 100
RECORD = re.compile(rb"^ *\d+ \[\d+\] \d+: tick: n=(\d+)$", re.M)
CFLAGS = ["-std=gnu11", "-O1", "-Wall", "-Wextra"]


class Skipped(Exception):
    """Why a case can't be tried here."""


def need(*programs):
    for program in programs:
        if not shutil.which(program):
            raise Skipped("%s is not installed" % program)


def put(path, text, mode="w"):
    with open(PLACE / path, mode) as file:
        file.write(text)


def get(path):
    return (PLACE / path).read_bytes()


def declare():
    put("synthetic_events", "tick u64 n\n")
    put(TICK + "enable", "1\n")


def emit(numbers):
    """An event a write, none of which has a newline."""
    file = os.open(PLACE / INJECT, os.O_WRONLY)
    for number in numbers:
        os.write(file, b"n=%d" % number)
    os.close(file)


def numbers(text):
    return [int(number) for number in RECORD.findall(text)]


def errno_of(call, *given):
    """What a call is refused for, or 0."""
    try:
        call(*given)
    except OSError as error:
        return error.errno
    return 0


def script(text, *words, statuses=(0,), seconds=SECONDS):
    """What a script of bash shows, with these words as `$1` and so on, in a folder of its own."""
    ran = subprocess.run(
        ["bash", "-c", text, "-", *map(str, words)],
        stdin=subprocess.DEVNULL, stdout=subprocess.PIPE, stderr=subprocess.PIPE, cwd=str(ROOM), timeout=seconds, env={**os.environ, "LC_ALL": "C"},
    )
    assert ran.returncode in statuses, "the status is %d: %s" % (ran.returncode, ran.stderr.decode(errors="replace")[-300:])
    return ran.stdout


def compiled(name):
    """A program of tests/stream_clients."""
    need("cc")
    program = ROOM / name
    if not program.exists():
        subprocess.run(["cc", *CFLAGS, "-o", str(program), str(CLIENTS / (name + ".c"))], check=True)
    return program


def instance(name):
    """Makes an instance that records `tick`."""
    (PLACE / "instances" / name).mkdir()
    put("instances/%s/%senable" % (name, TICK), "1\n")
    return "instances/%s/" % name


def resident():
    """The server's memory, in bytes."""
    return int(re.search(r"VmRSS:\s*(\d+)", Path("/proc/%s/status" % SERVER).read_text())[1]) * 1024


def wait_until(is_so, seconds=60):
    until = time.monotonic() + seconds
    while not is_so():
        assert time.monotonic() < until, "it did not come to that in %d seconds" % seconds
        time.sleep(0.005)
