"""Walks through the library by calls from Python, of this seed and for so many seconds: tests/walk tells of walks. What each call replies is compared
with what this program prints of the same commands in a script. Prints what is wrong, and a line about all."""
import sys
from functools import partial
from pathlib import Path

sys.dont_write_bytecode = True
TOP = Path(__file__).resolve().parent.parent.parent
sys.path[:0] = [str(TOP / "tests"), str(TOP / "python")]

from walking import library
from walking.commands import Walk
from walking.walks import Walked, all_of


def main(program, seed, seconds):
    walked = Walked("library", partial(library.walk, program), 4_000, Walk.KINDS)
    return min(1, all_of(walked, seed, [], float(seconds))[1])


sys.exit(main(*sys.argv[1:]))
