"""Running a program many times over on the beginnings of one script, each time forked off a process that has loaded it (forking.c): a run takes a small
part of what it takes to start a process."""
import functools
import os
import shutil
import struct
import subprocess
import tempfile
from collections import namedtuple
from pathlib import Path

from cases.running import Outcome

SOURCE = Path(__file__).with_name("forking.c")
SECONDS = 1_200  # for all runs of a script, of a machine that is busy
RUN, ENDED = struct.Struct("qq"), struct.Struct("qqqq")

Run = namedtuple("Run", "length refused", defaults=(0,))  # of the script so many bytes; which allocation is refused, counted from 1, or 0
Ended = namedtuple("Ended", "was_refused outcome")


@functools.lru_cache(maxsize=None)
def library():
    """The folder of what forks, which lasts as long as this process; None where there is no C compiler."""
    compiler = shutil.which("cc")
    if not compiler:
        return None
    folder = tempfile.TemporaryDirectory(prefix="forking-")
    subprocess.run([compiler, "-O2", "-shared", "-fPIC", "-o", Path(folder.name) / "forking.so", SOURCE], check=True)
    return folder


def can_fork():
    return library() is not None


def pieces(data, ends):
    return (data[start:end] for start, end in zip([0] + ends, ends))


def outcomes(command, script, runs):
    """How each of these runs ended, up to the first one that was to be refused an allocation and was not."""
    with tempfile.TemporaryDirectory(prefix="runs-") as name:
        folder = Path(name)
        (folder / "script").write_bytes(script)
        (folder / "runs").write_bytes(b"".join(RUN.pack(*run) for run in runs))
        environment = dict(os.environ, LD_PRELOAD=str(Path(library().name) / "forking.so"), RUNS=name)
        subprocess.run(command, env=environment, stdin=subprocess.DEVNULL, check=True, timeout=SECONDS)
        ended = list(ENDED.iter_unpack((folder / "ended").read_bytes()))
        written = [(folder / file).read_bytes() for file in ("stdout", "stderr")]
    refused, statuses, *ends = zip(*ended)
    texts = [pieces(data, list(each)) for data, each in zip(written, ends)]
    return [Ended(bool(was), Outcome(*outcome)) for was, *outcome in zip(refused, statuses, *texts)]
