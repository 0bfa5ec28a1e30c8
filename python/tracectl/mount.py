"""Why a tracer can't be mounted, or unmounted, in words."""
from __future__ import annotations

import os

from .arguments import decoded
from .refused import NAMES, Refused

ALLOW_OTHER = 1  # TRACECTL_ALLOW_OTHER

WORDS = {
    "NotMounted": "the tracer is not mounted",
    "AlreadyMounted": "the tracer is mounted already",
    "NoFolder": "{folder} is no folder, or one that this user can't reach",
    "FolderBusy": "something else is mounted on {folder}",
    "NoDevice": "/dev/fuse can't be opened: {error}",
    "NoRight": "this user may not mount on {folder}, neither by mount(2) nor by fusermount3",
    "Limited": "a tracer with a limit of commands can't be mounted",
}


def refusal(status: int, folder: bytes = b"", error: int = 0) -> Refused:
    """Of a call that would mount on this folder, or unmount; `error` is the number of the error that the system told."""
    words = WORDS.get(NAMES.get(status, ""))
    return Refused(status, explanation=words and words.format(folder=decoded(folder) or "''", error=os.strerror(error)))
