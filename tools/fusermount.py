#!/usr/bin/env python3
"""tools/fusermount.py DIR OPTIONS COMMAND WORD ..: mounts on a folder by fusermount3, as an ordinary user may, and runs a command with what it opened.

OPTIONS are those of FUSE, with a comma between two. The command takes the place of this process, and finds /dev/fuse as descriptor 3. Where nothing is
mounted fusermount3 has told why, and the exit status is 5.
"""
import os
import socket
import subprocess
import sys

DEVICE = 3  # the descriptor
NOT_MOUNTED = 5


def mounted(folder, options):
    """The descriptor by which the kernel asks, or None."""
    ours, theirs = socket.socketpair()
    with ours, theirs:
        words = ["fusermount3", "-o", options, "--", folder]
        asked = subprocess.Popen(words, stdin=subprocess.DEVNULL, pass_fds=[theirs.fileno()], env=dict(os.environ, _FUSE_COMMFD=str(theirs.fileno())))
        theirs.close()
        files = socket.recv_fds(ours, 1, 1)[1]
        return files[0] if asked.wait() == 0 and files else None


def main(folder, options, *command):
    device = mounted(folder, options)
    if device is None:
        return NOT_MOUNTED
    if device != DEVICE:
        os.dup2(device, DEVICE)
        os.close(device)
    os.set_inheritable(DEVICE, True)
    os.execvp(command[0], command)


if __name__ == "__main__":
    sys.exit(main(*sys.argv[1:]))
