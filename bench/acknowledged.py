#!/usr/bin/env python3
"""Chunks that are acknowledged one by one, against a small C program that makes the calls of the same commits.

usage: bench/acknowledged.py [CHUNKS] [RUNS]
"""
import os
import subprocess
import sys
import time
from statistics import median

from common import PROGRAM, TOP, build, folder


def timed(command, chunks, reply_to):
    """Seconds from the first chunk to the last reply: each chunk is sent when the one before it is answered."""
    child = subprocess.Popen(command, stdin=subprocess.PIPE, stdout=subprocess.PIPE, bufsize=0)
    start = time.perf_counter()
    for number in range(chunks):
        child.stdin.write(b"%d + %d!\n" % (number, number))
        reply = child.stdout.readline()
        assert reply == reply_to(number), reply
    seconds = time.perf_counter() - start
    child.stdin.close()
    assert child.wait() == 0
    return seconds


def main():
    chunks = int(sys.argv[1]) if len(sys.argv) > 1 else 1000
    runs = int(sys.argv[2]) if len(sys.argv) > 2 else 7
    build()
    with folder() as place:
        floor = os.path.join(place, "floor")
        subprocess.run(["cc", "-O2", "-o", floor, os.path.join(TOP, "bench", "floor.c")], check=True)
        ratios = []
        for run in range(runs):
            work = os.path.join(place, f"work{run}")
            os.mkdir(work)
            least_work = os.path.join(place, f"floor{run}")
            os.mkdir(least_work)
            least = timed([floor, least_work], chunks, lambda number: b"ok\n")
            ours = timed([PROGRAM, work, "run"], chunks, lambda number: b"=> %d\n" % (2 * number))
            ratios.append(ours / least)
            print(f"run {run + 1}: {chunks} chunks, floor {least:.3f} s, st80 {ours:.3f} s, ratio {ours / least:.3f}")
    print(f"median ratio {median(ratios):.3f} (at most 1.15 is wanted)")


main()
