#!/usr/bin/env python3
"""Methods filed in from one file: the time against a small C program that makes the calls of the same commits, and how it grows.

usage: bench/methods.py [METHODS]

The shapes: all methods of one class in one section; each in a section of its own, of ten classes in turn; and each file a second time,
in which every method is put again.
"""
import os
import resource
import subprocess
import sys
import time

from common import PROGRAM, TOP, build, folder

CLASSES = 10


def definition(number):
    return (f"Object subclass: #C{number} instanceVariableNames: 'a' classVariableNames: '' poolDictionaries: '' "
            f"category: 'Measured'!\n")


def source(number):
    return f"m{number}: x\n\ta _ x + {number}.\n\t^a max: (x ifNil: [0])"


def head(number):
    return f"C{number} methodsFor: 'measured'"


def in_one_section(count):
    return "!%s!\n%s! !\n" % (head(0), "!\n".join(source(number) for number in range(count)))


def in_sections(count):
    return "".join(f"!{head(number % CLASSES)}!\n{source(number)}! !\n" for number in range(count))


SHAPES = {"one section": in_one_section, "a section each": in_sections}


def timed(command, data):
    """Seconds and user seconds of a program on this input, and its replies."""
    before = resource.getrusage(resource.RUSAGE_CHILDREN).ru_utime
    start = time.perf_counter()
    found = subprocess.run(command, input=data, stdout=subprocess.PIPE, check=True)
    seconds = time.perf_counter() - start
    return seconds, resource.getrusage(resource.RUSAGE_CHILDREN).ru_utime - before, found.stdout


def blocks(count):
    """Lines as long as the blocks of the methods."""
    return "".join(f"!{head(number % CLASSES)}!\r{source(number)}! !\n".replace("\n\t", "\r\t")
                   for number in range(count)).encode()


def measured(shape, count, place, floor):
    """The user seconds of a file that is read in, and read in again."""
    work, least_work = (os.path.join(place, f"{len(shape)}-{count}{end}") for end in ("", "-floor"))
    os.mkdir(work)
    os.mkdir(least_work)
    least, _, _ = timed([floor, least_work], blocks(count))
    _, _, replies = timed([PROGRAM, work, "run"], "".join(map(definition, range(CLASSES))).encode())
    assert replies == b"ok\n" * CLASSES, replies[:200]
    text = SHAPES[shape](count)
    users = []
    for turn in ("first", "again"):
        seconds, user, replies = timed([PROGRAM, work, "run"], text.encode())
        assert replies == b"ok\n" * count, replies[:200]
        users.append(user)
        print(f"{shape}, {turn}: {count} methods, {seconds:.2f} s, floor {least:.2f} s, ratio {seconds / least:.2f}, "
              f"user {user:.2f} s", flush=True)
    return users


def main():
    methods = int(sys.argv[1]) if len(sys.argv) > 1 else 10_000
    build()
    with folder() as place:
        floor = os.path.join(place, "floor")
        subprocess.run(["cc", "-O2", "-o", floor, os.path.join(TOP, "bench", "floor.c")], check=True)
        for shape in SHAPES:
            half, whole = (measured(shape, count, place, floor) for count in (methods // 2, methods))
            for turn, less, more in zip(("first", "again"), half, whole):
                print(f"{shape}, {turn}: user time of {methods} against {methods // 2}: {more / less:.2f} (at most 2.3 is wanted)",
                      flush=True)


main()
