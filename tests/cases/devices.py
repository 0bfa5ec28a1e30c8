"""Devices that fail, and the longest script."""
import errno
import os
import resource
import signal
import subprocess
import tempfile

from cases.emitting import REFUSALS, REFUSED, SILENT
from cases.running import FAILED, MOST_SCRIPT_BYTES, SECONDS, TOP, Case, Outcome, case_of, differences, failed_on, run


PART = b"parallel\nthread\ncat nothing\nthread\ncat nothing\nend\n"
LONG_PART = PART.replace(b"cat nothing\n", b"cat nothing\n" * 50_000)


def unwritten(number):
    return failed_on("standard output", number)


def pipe_without_reader():
    reader, writer = os.pipe()
    os.close(reader)
    return writer


def input_cases():
    folder = os.open(str(TOP), os.O_RDONLY)
    return [
        case_of("standard input is a folder", failed_on('script "<stdin>"', errno.EISDIR), stdin=folder),
        case_of("the script is a folder", failed_on('script "%s"' % TOP, errno.EISDIR), [str(TOP)]),
        case_of("standard input is closed", failed_on('script "<stdin>"', errno.EBADF), before=lambda: os.close(0)),
        case_of("standard input is empty", Outcome(0, b"", b"")),
        case_of("standard input has no end", FAILED, stdin=os.open("/dev/zero", os.O_RDONLY)),
        case_of("the script has no end", FAILED, ["/dev/zero"]),
        case_of(
            "standard input is a folder, standard error is closed",
            FAILED._replace(stderr=b""),
            stdin=folder,
            before=lambda: os.close(2),
        ),
    ]


def output_cases():
    done = Outcome(0, b"", b"")
    full = os.open("/dev/full", os.O_WRONLY)
    pipe = pipe_without_reader()

    def with_pipe_signal(handler):
        return lambda: signal.signal(signal.SIGPIPE, handler)

    return [
        case_of("standard output is a full device", unwritten(errno.ENOSPC), script=REFUSED, stdout=full),
        case_of("standard output is a full device, in a part", unwritten(errno.ENOSPC), script=PART, stdout=full),
        case_of("a full device, and nothing to write", done, script=SILENT, stdout=full),
        case_of("standard output is closed", unwritten(errno.EBADF), script=REFUSED, before=lambda: os.close(1)),
        case_of("standard output is closed, in a part", unwritten(errno.EBADF), script=PART, before=lambda: os.close(1)),
        case_of("standard output is closed, and nothing to write", done, script=SILENT, before=lambda: os.close(1)),
        case_of("nobody reads the pipe", unwritten(errno.EPIPE), script=REFUSED, stdout=pipe, before=with_pipe_signal(signal.SIG_DFL)),
        case_of("nobody reads the pipe, and its signal is ignored", unwritten(errno.EPIPE), script=REFUSED, stdout=pipe, before=with_pipe_signal(signal.SIG_IGN)),
        Case("a file that may not grow", file_that_may_not_grow),
        Case("a reader that leaves after a line", reader_that_leaves(b"cat nothing\n" * 100_000, b"! 1: N1 NoSuchFile\n")),
        Case("a reader that leaves after a line of a part", reader_that_leaves(LONG_PART, b"-- thread 0\n")),
    ]


def file_that_may_not_grow(program):
    """Standard output is a file that takes 30 bytes: they are the first 30 of the replies, and end within one."""

    def limit_file():
        signal.signal(signal.SIGXFSZ, signal.SIG_IGN)
        resource.setrlimit(resource.RLIMIT_FSIZE, (30, 30))

    with tempfile.TemporaryFile() as file:
        got = run([program, "-"], script=REFUSED, stdout=file, before=limit_file)
        file.seek(0)
        return differences(got._replace(stdout=file.read()), unwritten(errno.EFBIG)._replace(stdout=REFUSALS[:30]))


def reader_that_leaves(lines, first):
    """As `| head -1` does: the first line is read of more than a pipe takes."""

    def leaves(program):
        with tempfile.TemporaryFile() as script:
            script.write(lines)
            script.seek(0)
            session = subprocess.Popen([str(program), "-"], stdin=script, stdout=subprocess.PIPE, stderr=subprocess.PIPE)
            line = session.stdout.readline()
            session.stdout.close()
            complaint = session.stderr.read()
            session.stderr.close()
            return differences(Outcome(session.wait(timeout=SECONDS), line, complaint), unwritten(errno.EPIPE)._replace(stdout=first))

    return leaves


def comments(count):
    """So many bytes that say nothing, the last one a newline."""
    line = b"#" * 63 + b"\n"
    short = count % len(line)
    return b"#" * (short - 1) + b"\n" * min(short, 1) + line * (count // len(line))


def length_cases():
    last = b"cat options/overwrite\n"
    longest = comments(MOST_SCRIPT_BYTES - len(last)) + last
    return [
        case_of("the longest script", Outcome(0, b"1\n", b""), script=longest),
        case_of("a script that is too long by a byte", FAILED, script=b"\n" + longest),
        case_of("a script far too long", FAILED, script=last + longest + longest),
    ]
