#!/usr/bin/env python3
"""How fast a long input is read that keeps nothing, against wc and tr.

usage: bench/reading.py [MEBIBYTES] [RUNS]
"""
import os
import subprocess
import sys
import time
from statistics import median

from common import PROGRAM, build, folder


def seconds(command, path):
    with open(path, "rb") as source:
        start = time.perf_counter()
        subprocess.run(command, stdin=source, stdout=subprocess.DEVNULL)
        return time.perf_counter() - start


def main():
    size = (int(sys.argv[1]) if len(sys.argv) > 1 else 256) << 20
    runs = int(sys.argv[2]) if len(sys.argv) > 2 else 5
    build()
    with folder() as place:
        shapes = {
            "one over-long chunk": b"a" * (size - 1) + b"!",
            "separators": b" \t\r\n" * (size // 4),
            "stray empty heads": b"! !\n" * (size // 4),
        }
        for name, input in shapes.items():
            path = os.path.join(place, "input")
            with open(path, "wb") as target:
                target.write(input)
            work = os.path.join(place, name.replace(" ", "-"))
            os.mkdir(work)
            commands = {
                "st80": [PROGRAM, work, "run"],
                "wc -c through a pipe": ["sh", "-c", "cat | wc -c"],
                "tr": ["tr", "!", "."],
            }
            rates = {
                which: median([size / seconds(command, path) / 1e6 for _ in range(runs)])
                for which, command in commands.items()
            }
            print(f"{name}: " + ", ".join(f"{which} {rate:.0f} MB/s" for which, rate in rates.items())
                  + f", ratio to tr {rates['tr'] / rates['st80']:.2f} (at least 30 MB/s is wanted)")


main()
