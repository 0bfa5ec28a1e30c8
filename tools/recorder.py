#!/usr/bin/env python3
"""tools/recorder.py FILE VERSION PROGRAM OPTION ..: hands a kernel's requests to the server of a mount, and its replies to the kernel, and records them.

Standard input and output are /dev/fuse, as they would be the program's. Descriptor 5 is the recording, FILE, which is empty and opened to append
(tools/recording.py tells what is in it), and descriptor 4 is where a line goes if it can't be written; then the tracer goes on without it. VERSION is
noted in it. The exit status is that of the program, 128 and a number if a signal ended it or this, or 5 if requests can't be read or replies written.

Each request is recorded, and then handed on, and the next one is read once the program has taken it, so that a kernel keeps those that it would keep
without a recorder. Each reply is written by one write, and then noted. A request or a reply that was interrupted (ENOENT) is as without a recorder: the
program is not told. Once the file system is unmounted (ENODEV) the program's input ends.

What feeds standard input need not be a device: from a pipe or a file come requests one after another.
"""
import errno
import fcntl
import os
import select
import signal
import stat
import subprocess
import sys
import zlib

sys.dont_write_bytecode = True

from recording import DROPPED, END, LEAST_REPLY, LEAST_REQUEST, MOST_BYTES, NUMBER, REPLY, REPLY_CONTENT, REQUEST, TAKEN
from recording import Unframed, Writer, framed, is_gone

ASKED, ANSWERED, TOLD, RECORDING = 0, 1, 4, 5  # descriptors
F_SETPIPE_SZ = getattr(fcntl, "F_SETPIPE_SZ", 1031)
ROOM = 2 * MOST_BYTES
NOT_SERVED = 5
SIGNALS = (signal.SIGHUP, signal.SIGINT, signal.SIGTERM)


class Stopped(Exception):
    """Requests can't be read, or replies can't be written."""


def say(file, text):
    try:
        os.write(file, ("tracectl-mount: %s\n" % text).encode())
    except OSError:
        pass


class Recorder:
    def __init__(self, recording, words):
        self.recording, self.sum = recording, 0
        self.program = subprocess.Popen(words, stdin=subprocess.PIPE, stdout=subprocess.PIPE)
        self.requests, self.replies = self.program.stdin.fileno(), self.program.stdout.fileno()
        # A pipe of one page can be written again once all was taken.
        fcntl.fcntl(self.requests, F_SETPIPE_SZ, 4096)
        os.set_blocking(self.requests, False)
        if stat.S_ISCHR(os.fstat(ASKED).st_mode):
            os.set_blocking(ASKED, False)  # since a request may be interrupted after poll told of it
        self.unframed = self.untold = b""  # of what was read: what is no whole request yet, and what was not handed on yet
        self.unwritten = b""  # of what the program wrote: what is no whole reply yet
        self.is_framed = True
        self.woken, wake = os.pipe2(os.O_NONBLOCK | os.O_CLOEXEC)
        signal.set_wakeup_fd(wake, warn_on_full_buffer=False)
        for number in SIGNALS:
            if signal.getsignal(number) != signal.SIG_IGN:
                signal.signal(number, lambda *_: None)  # it wakes
        self.ending = self.waits_for()
        self.asking = self.waits_for((ASKED, select.POLLIN))
        self.handing = self.waits_for((self.requests, select.POLLOUT))
        self.waits = self.asking

    def waits_for(self, *files):
        found = select.poll()
        for file, events in ((self.replies, select.POLLIN), (self.woken, select.POLLIN), *files):
            found.register(file, events)
        return found

    def run(self):
        """The exit status, once the program has ended or a signal came."""
        while True:
            ready = dict(self.waits.poll())
            if self.woken in ready:
                self.program.terminate()
                self.program.wait()
                return 128 + os.read(self.woken, 1)[0]
            if self.replies in ready and not self.answer():
                status = self.program.wait()
                return status if status >= 0 else 128 - status
            if self.waits is self.handing and self.requests in ready:
                self.hand_on()
            elif self.waits is self.asking and ASKED in ready:
                self.take()

    def take(self):
        """Takes a request, or what comes of one by a pipe."""
        try:
            data = os.read(ASKED, ROOM)
        except OSError as error:
            if error.errno in (errno.EAGAIN, errno.ENOENT):
                return
            if not is_gone(error):
                raise Stopped("requests can't be read: %s" % error.strerror)
            data = b""
        if not data:
            self.end_requests()
            return
        self.record(data)
        self.untold, self.waits = data, self.handing

    def record(self, data):
        """Records each request that is whole now. What follows a length that no request has is none."""
        if not self.is_framed:
            return
        try:
            whole, self.unframed = framed(self.unframed + data, LEAST_REQUEST)
        except Unframed as unframed:
            whole, self.is_framed = unframed.args[0], False
        for request in whole:
            self.recording.add(REQUEST, request)

    def hand_on(self):
        """Hands on what the program has room for. Once it has taken all, the next request is waited for."""
        if not self.untold:
            self.waits = self.asking
            return
        try:
            self.untold = self.untold[os.write(self.requests, self.untold) :]
        except BlockingIOError:
            pass
        except BrokenPipeError:
            self.end_requests()

    def end_requests(self):
        self.waits = self.ending
        self.program.stdin.close()

    def answer(self):
        """Writes the replies that are whole now. Fails once there are no more."""
        data = os.read(self.replies, ROOM)
        try:
            whole, self.unwritten = framed(self.unwritten + data, LEAST_REPLY)
        except Unframed:
            raise Stopped("what the program wrote is no reply")
        for reply in whole:
            fate = self.write(reply)
            self.sum = zlib.crc32(reply, self.sum)
            self.recording.add(REPLY, REPLY_CONTENT.pack(len(reply), self.sum, fate))
        return bool(data)

    def write(self, reply):
        rest = reply
        try:
            while rest:
                rest = rest[os.write(ANSWERED, rest) :]
        except OSError as error:
            if error.errno != errno.ENOENT or len(rest) < len(reply):
                raise Stopped("a reply can't be written: %s" % error.strerror)
            return DROPPED
        return TAKEN


def main(file, version, *words):
    system = "%s %s" % (os.uname().sysname, os.uname().release)
    told = "the recording %s ends here, and the tracer goes on: %s"
    recording = Writer(RECORDING, version, system, words[1:], lambda why: say(TOLD, told % (file, why)))
    try:
        recorder = Recorder(recording, words)
    except OSError as error:
        say(sys.stderr.fileno(), "%s can't be started: %s" % (words[0], error.strerror))
        return NOT_SERVED
    try:
        status = recorder.run()
    except Stopped as stopped:
        recorder.program.terminate()
        recorder.program.wait()
        say(sys.stderr.fileno(), stopped)
        status = NOT_SERVED
    recording.add(END, NUMBER.pack(status))
    return status


if __name__ == "__main__":
    sys.exit(main(*sys.argv[1:]))
