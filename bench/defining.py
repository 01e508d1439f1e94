#!/usr/bin/env python3
"""Class definitions filed in from one file: the time against a small C program that makes the calls of the same commits, and how it grows.

usage: bench/defining.py [CLASSES]

The shapes: each class under Object; each under the one before; a tree in which a class has ten subclasses; and each file a second time,
in which every class is defined again (not for the chain, where each definition is checked against all descendants).
"""
import os
import resource
import subprocess
import sys
import time

from common import PROGRAM, TOP, build, folder

SHAPES = {
    "all under Object": lambda number: "Object",
    "each under the one before": lambda number: f"C{number - 1}" if number else "Object",
    "a tree of tens": lambda number: f"C{number // 10}" if number else "Object",
}


def definition(number, superclass):
    return (f"{superclass} subclass: #C{number}\n\tinstanceVariableNames: ''\n\tclassVariableNames: 'One Two'\n"
            f"\tpoolDictionaries: ''\n\tcategory: 'Measured'!\n").encode()


def timed(command, data):
    """Seconds and user seconds of a program on this input, and its replies."""
    before = resource.getrusage(resource.RUSAGE_CHILDREN).ru_utime
    start = time.perf_counter()
    found = subprocess.run(command, input=data, stdout=subprocess.PIPE, check=True)
    seconds = time.perf_counter() - start
    return seconds, resource.getrusage(resource.RUSAGE_CHILDREN).ru_utime - before, found.stdout


def filed_in(work, chunks):
    seconds, user, replies = timed([PROGRAM, work, "run"], b"".join(chunks))
    assert replies == b"ok\n" * len(chunks), replies[:200]
    return seconds, user


def main():
    classes = int(sys.argv[1]) if len(sys.argv) > 1 else 10_000
    build()
    with folder() as place:
        floor = os.path.join(place, "floor")
        subprocess.run(["cc", "-O2", "-o", floor, os.path.join(TOP, "bench", "floor.c")], check=True)
        for shape, superclass in SHAPES.items():
            taken = {}
            for count in (classes // 2, classes):
                chunks = [definition(number, superclass(number)) for number in range(count)]
                work = os.path.join(place, f"{len(shape)}-{count}")
                least_work = work + "-floor"
                os.mkdir(work)
                os.mkdir(least_work)
                lines = b"".join(chunk.replace(b"\n", b"\r")[:-1] + b"\n" for chunk in chunks)
                least, _, _ = timed([floor, least_work], lines)
                rounds = ["first"] if "before" in shape else ["first", "again"]
                for turn in rounds:
                    seconds, user = filed_in(work, chunks)
                    taken[turn, count] = user
                    print(f"{shape}, {turn}: {count} classes, {seconds:.2f} s, floor {least:.2f} s, "
                          f"ratio {seconds / least:.2f}, user {user:.2f} s", flush=True)
            for turn in rounds:
                print(f"{shape}, {turn}: user time of {classes} against {classes // 2}: "
                      f"{taken[turn, classes] / taken[turn, classes // 2]:.2f} (at most 2.3 is wanted)", flush=True)


main()
