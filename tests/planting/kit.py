"""What tests/planted takes from the kit's inner workings. It relies on this, as of rattle-kit-13:

- `bin/rtlib.py` in the kit's folder is what `rt` is made of. `crates_below(TOP)` there has the crates of a repository, each with its `name`, `folder` and
  `said`, what crates.txt says of it, `below()` the libraries of the repository that it is built from, each after its own, and `words(FLAGS)` the words of
  a check.
- `build_rlib(FLAGS, anew=False)` builds a library into `out/rlib`, in which `stamp` is what `stamp()` gives of the sources that it was built from and of
  those below. The libraries that `rt ci` leaves have no stamp, since they fit only one another.
- `rattle check` over a folder (`--incremental`) takes from it what earlier checks kept and is still up to date, and never writes into a file of it in
  place, so a folder of hard links keeps the other as it is.
"""
import fcntl
import functools
import os
import shutil
import subprocess
import sys
import time
from pathlib import Path

sys.dont_write_bytecode = True
sys.path.insert(0, str(Path(__file__).resolve().parent.parent.parent / "tools"))

import unproved

sys.path.insert(0, str(unproved.kit() / "bin"))

import rtlib

PARTS = rtlib.PARTS
JOBS = ["--jobs", "1"]
# It is made once for each crate of a copy, which nobody changes; rtlib makes those of all crates below each time.
rtlib.Crate.stamp = functools.lru_cache(maxsize=None)(rtlib.Crate.stamp)


def crates_in(top):
    """The crates of a repository, by their names, each after those that it is built from."""
    os.chdir(str(top))  # from which rtlib finds a repository's list
    return {crate.name: crate for crate in rtlib.crates_below(str(top))}


def begin():
    """To be called first, by the main thread: what is started below ends when this process ends."""
    os.environ.pop(rtlib.ALLOW_C, None)
    rtlib.guarded()


def link(one, other):
    """Makes a folder of hard links to what is in another one."""
    other.parent.mkdir(parents=True, exist_ok=True)
    shutil.copytree(str(one), str(other), copy_function=os.link)


def replace(one, other):
    """Makes a folder, in place of what is there, of hard links to what is in another one, unless a run of rt is at work in the folder that its folder is in."""
    held = os.open(str(other.parent.parent), os.O_RDONLY)
    new, old = other.with_name("planted-new"), other.with_name("planted-old")
    try:
        fcntl.flock(held, fcntl.LOCK_EX | fcntl.LOCK_NB)
        link(one, new)
        if other.exists():
            other.rename(old)
        new.rename(other)
    except OSError:
        pass
    finally:
        shutil.rmtree(str(new), ignore_errors=True)
        shutil.rmtree(str(old), ignore_errors=True)
        os.close(held)


def sources_of(folder):
    """The sources in a crate's folder, by their paths."""
    return {file[len(folder) :]: Path(file).read_bytes() for file in rtlib.files_of(folder)}


def has_sources_of(crate, top):
    """Whether another repository has the same sources of a crate and of those below it."""
    return all(sources_of(it.folder) == sources_of("%s/crates/%s" % (top, it.name)) for it in [*crate.below(), crate])


def build(crate, log):
    """Builds a library, into its folder. Whether it was proved."""
    with open(str(log), "w") as crate.out:
        return not crate.build_rlib(JOBS, anew=False)


def check(crate, folder, flags, kept):
    """What the checker prints of the sources of a crate in this folder, over what is kept in a folder of it, and last the time that it took."""
    words = [rtlib.RATTLE, "check", *crate.words([*JOBS, *flags], keeps=False), "--incremental", kept]
    how = {"stdin": subprocess.DEVNULL, "stdout": subprocess.PIPE, "stderr": subprocess.STDOUT}
    started = time.time()
    with subprocess.Popen([*rtlib.guarded(), *words], cwd=str(folder), **how) as ran:
        said = ran.stdout.read().decode(errors="replace")
        _, status, usage = os.wait4(ran.pid, 0)
        ran.returncode = status
    return "%s\n%.0f seconds, %.0f of a processor\n" % (said, time.time() - started, usage.ru_utime + usage.ru_stime)
