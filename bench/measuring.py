"""What the scripts beside this one have in common: programs are run in turns, and their time, their instructions or their
memory is measured."""
import fcntl
import os
import re
import statistics
import struct
import subprocess
import sys
import tempfile
import termios
import time

TOP = os.path.dirname(os.path.dirname(os.path.abspath(__file__)))
# Of each program where it is built, and by what.
PROGRAMS = {"tracectl": ("crates/tracectl/out/tracectl", "./tracectl --prove"), "benches": ("bench/out/benches", "bench/build")}
RUNS = 12
MOST_SCRIPT_BYTES = 16 * 1024 * 1024  # the program refuses longer scripts


def program_of(crate):
    """The built program of a crate."""
    path, command = PROGRAMS[crate]
    program = os.path.join(TOP, path)
    if not os.access(program, os.X_OK):
        sys.exit("no program at %s: build it first, by %s" % (path, command))
    return program


def tracer(program=None):
    """The words that run the built tracectl, or another build of it, over standard input, with rings of two pages of 64 bytes."""
    return [program or program_of("tracectl"), "--pages", "2", "--page-bytes", "64", "-"]


def run_once(words, path=os.devnull):
    """The time of one run, in seconds, with this file on standard input."""
    with open(path, "rb") as source:
        start = time.perf_counter()
        status = subprocess.Popen(words, stdin=source, stdout=subprocess.DEVNULL).wait()
        elapsed = time.perf_counter() - start
    if status != 0:
        sys.exit("the program ended with %d" % status)
    return elapsed


def least_times(runs):
    """For each run, its words and perhaps a file, the least time of several, in seconds.

    The runs take turns, so that a machine that gets slower or faster does so for all of them.
    """
    rounds = [[run_once(*run) for run in runs] for _ in range(RUNS)]
    return [min(of_one) for of_one in zip(*rounds)]


def growth(words, paths, counts):
    """What a line takes in the last of three files beside one in the second, the middle of several rounds: of lines that are counted, the first file
    has none, and the others have these counts. In a round the second file is run as often as makes about as many lines as the last one has, half of
    them before it and half after it. (The least time of many short runs is that of a moment when the machine is fast; a long run has no such moment.)"""
    nothing, short, long = paths
    often = max(1, round(counts[1] / counts[0]))
    ratios = []
    for _ in range(RUNS):
        before = [run_once(words, short) for _ in range((often + 1) // 2)]
        idle = sum(run_once(words, nothing) for _ in range(often))
        taken = run_once(words, long)
        after = [run_once(words, short) for _ in range(often // 2)]
        ratios.append((taken - idle / often) / counts[1] / ((sum(before + after) - idle) / (often * counts[0])))
    return statistics.median(ratios)


def processor_time(words):
    """The processor time of one run, in seconds, which other work on the machine changes less than its time by the clock."""
    process = subprocess.Popen(words, stdin=subprocess.DEVNULL, stdout=subprocess.DEVNULL)
    _, status, used = os.wait4(process.pid, 0)
    process.returncode = os.waitstatus_to_exitcode(status)
    if process.returncode != 0:
        sys.exit("the program ended with %d" % process.returncode)
    return used.ru_utime + used.ru_stime


def middle_times(runs):
    """For each run, its words, the processor time in the middle of several, in seconds. The runs take turns."""
    rounds = [[processor_time(words) for words in runs] for _ in range(RUNS)]
    return [statistics.median(of_one) for of_one in zip(*rounds)]


def instructions(words, text=""):
    """How many instructions a run takes, with this text on standard input."""
    command = ["valgrind", "--tool=callgrind", "--callgrind-out-file=/dev/null"] + words
    run = subprocess.run(command, input=text, text=True, stdout=subprocess.DEVNULL, stderr=subprocess.PIPE, check=True)
    return int(re.search(r"Collected : (\d+)", run.stderr).group(1))


def costs_of(runs, as_instructions):
    """What each run costs, its words and the lines of its script on standard input, and the unit: the least time in ns, or instructions."""
    texts = ["".join(line + "\n" for line in lines) for _, lines in runs]
    if as_instructions:
        return "instructions", [instructions(words, text) for (words, _), text in zip(runs, texts)]
    with tempfile.TemporaryDirectory() as folder:
        paths = [os.path.join(folder, str(number)) for number in range(len(texts))]
        for path, text in zip(paths, texts):
            with open(path, "w") as file:
                file.write(text)
        return "ns", [seconds * 1e9 for seconds in least_times([(words, path) for (words, _), path in zip(runs, paths)])]


# A pipe of a page, and reads whose replies are more than it takes.
PIPE_BYTES = 4096
LAST_READS = ["cat per_cpu/cpu0/stats"] * (PIPE_BYTES // 64)


def skip(pipe, count):
    """Reads so many bytes away."""
    while count > 0:
        count -= len(os.read(pipe, min(count, PIPE_BYTES)))


def wait_until_still(pipe):
    """Waits until there are bytes in a pipe, and no more come."""
    waiting = -1
    while True:
        time.sleep(0.05)
        before, waiting = waiting, struct.unpack("i", fcntl.ioctl(pipe, termios.FIONREAD, b"\0" * 4))[0]
        if before == waiting > 0:
            return


def peak_of(words, script):
    """The peak of the program's own memory in a run over these lines, in bytes: it is read while the program waits to write its last replies."""
    with tempfile.TemporaryFile("w+") as source:
        source.writelines(line + "\n" for line in script)
        source.seek(0)
        replies = subprocess.run(words, stdin=source, stdout=subprocess.PIPE, check=True).stdout
        source.writelines(line + "\n" for line in LAST_READS)
        source.seek(0)
        reading, writing = os.pipe()
        fcntl.fcntl(writing, fcntl.F_SETPIPE_SZ, PIPE_BYTES)
        run = subprocess.Popen(words, stdin=source, stdout=writing)
        os.close(writing)
        skip(reading, len(replies))
        wait_until_still(reading)
        with open("/proc/%d/status" % run.pid) as status:
            peak = int(re.search(r"VmHWM:\s+(\d+) kB", status.read()).group(1)) * 1024
        with os.fdopen(reading, "rb") as rest:
            rest.read()
        run.wait()
    return peak


def most_that_fit(setup, lines_of, count):
    """The greatest number up to this one of which a script can have the lines, after these and before the last reads."""
    room = MOST_SCRIPT_BYTES - sum(len(line) + 1 for line in setup + LAST_READS)
    for n in range(count):
        room -= sum(len(line) + 1 for line in lines_of(n))
        if room < 0:
            return n
    return count
