"""Where the shared library is."""
from __future__ import annotations

import os
import subprocess
from pathlib import Path

from .installed import LIBRARY

FILES = ("libtracectl.so.0.4", "libtracectl.so")


def files_in(folder: Path) -> list[Path]:
    return [folder / name for name in FILES]


def pkg_config_folder() -> Path | None:
    """The folder that pkg-config tells, if there is one."""
    try:
        told = subprocess.run(["pkg-config", "--variable=libdir", "tracectl"], stdout=subprocess.PIPE, stderr=subprocess.DEVNULL, check=True)
    except (OSError, subprocess.CalledProcessError):
        return None
    return Path(os.fsdecode(told.stdout.rstrip(b"\n"))) if told.stdout.strip() else None


def find_library() -> str:
    """The path of the shared library: what TRACECTL_LIBRARY names, whether or not it is there; else the first that is there of the installation's, one
    beside the package's modules, and one in the folder that pkg-config tells."""
    named = os.environ.get("TRACECTL_LIBRARY")
    if named:
        return named
    beside = files_in(Path(__file__).resolve().parent)
    near = [Path(LIBRARY), *beside] if LIBRARY else beside
    for path in near:
        if path.is_file():
            return str(path)
    folder = pkg_config_folder()
    far = files_in(folder) if folder else []
    for path in far:
        if path.is_file():
            return str(path)
    looked = ["TRACECTL_LIBRARY is not set", *("there is no %s" % path for path in near + far)]
    looked += [] if folder else ["pkg-config knows no tracectl"]
    raise FileNotFoundError("the shared library of tracectl was not found: %s; ./install or examples/c/build makes it" % "; ".join(looked))
