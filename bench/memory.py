#!/usr/bin/env python3
"""Peak resident memory at 1 MiB and at 256 MiB of input.

usage: bench/memory.py
"""
import os
import re
import subprocess

from common import PROGRAM, build, folder

# A chunk that is too long, and stray heads: nothing is kept, and a reply is written for each MiB.
MEBIBYTE = (b"x" * 70_000 + b"! \n" + b"! !\n" * 100).ljust(1 << 20)


def peak(size, work):
    """Kibibytes, read while the program waits for more input than it was given."""
    child = subprocess.Popen([PROGRAM, work, "run"], stdin=subprocess.PIPE, stdout=subprocess.PIPE, bufsize=0)
    for _ in range(size):
        child.stdin.write(MEBIBYTE)
        assert child.stdout.readline() == b"refused 3 too large chunk 70000\n"
    with open(f"/proc/{child.pid}/status") as status:
        most = int(re.search(r"VmHWM:\s+(\d+) kB", status.read()).group(1))
    child.stdin.close()
    assert child.wait() == 1
    return most


def main():
    build()
    with folder() as place:
        peaks = {}
        for size in (1, 256):
            work = os.path.join(place, f"work{size}")
            os.mkdir(work)
            peaks[size] = peak(size, work)
            print(f"{size} MiB of input: peak of {peaks[size]} KiB")
        print(f"ratio {peaks[256] / peaks[1]:.3f}")


main()
