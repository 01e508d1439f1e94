"""The program's calls on files, streams and the clock, by a library that is loaded before the C library (calls.c)."""
import errno
import os
import shutil
import subprocess
import sys
from pathlib import Path
from typing import NamedTuple

SOURCE = Path(__file__).resolve().parent / "calls.c"
ERRORS = {name: getattr(errno, name) for name in ("EIO", "ENOSPC", "EINTR")}


class Call(NamedTuple):
    """A call: its name, the number of its file, its flags, place or length, what it answered, the error's number, and its bytes."""

    name: str
    file: int
    value: int
    answer: int
    error: int
    data: bytes


class Calls:
    """Runs with the library. What it notes of the last one stands in `out`."""

    def __init__(self, place):
        if not shutil.which("cc"):
            sys.exit("this trial wants a C compiler, cc")
        self.library, self.out = Path(place) / "calls.so", Path(place) / "calls"
        subprocess.run(["cc", "-O2", "-shared", "-fPIC", "-o", self.library, SOURCE], check=True)

    def environment(self, at=0, deed="", error=0, allocation=0, take=0):
        """The environment of a run in which this happens at the call of that number, and a read of standard input gives at most so many bytes."""
        self.out.unlink(missing_ok=True)
        words = {"CALLS_OUT": self.out, "CALLS_AT": at, "CALLS_DO": deed, "CALLS_ERROR": error, "CALLS_ALLOCATION": allocation, "CALLS_TAKE": take}
        return {**os.environ, "LD_PRELOAD": str(self.library), **{name: str(word) for name, word in words.items()}}

    def noted(self):
        """The calls of the last run, and how many allocations it made."""
        calls, allocations = [], 0
        for line in self.out.read_text().splitlines() if self.out.exists() else []:
            words = line.split(" ")
            if words[0] == "allocations":
                allocations = int(words[1])
            elif len(words) == 6:
                calls.append(Call(words[0], *map(int, words[1:5]), bytes.fromhex(words[5])))
        return calls, allocations
