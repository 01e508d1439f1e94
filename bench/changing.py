#!/usr/bin/env python3
"""Changes of one class filed in from files, kind after kind, with a start and the queries behind each: the user time, and how it grows.

usage: bench/changing.py [CHANGES]

The kinds: methods; their second versions; comments of the class; a new category for each method; the removal of each. `versions` is asked
of a method of two versions, and of one that has as many versions as there are changes of a kind.
"""
import os
import resource
import subprocess
import sys

from common import PROGRAM, build, folder

DEFINITION = ("Object subclass: #Measured instanceVariableNames: 'a' classVariableNames: '' poolDictionaries: '' "
              "category: 'Measured'!\n")


def method(selector, number):
    return f"!Measured methodsFor: 'measured'!\n{selector}: x\n\ta _ x + {number}.\n\t^a max: (x ifNil: [0])! !\n"


KINDS = {
    "methods": lambda number: method(f"m{number}", number),
    "second versions": lambda number: method(f"m{number}", number + 1),
    "versions of one": lambda number: method("m0", number + 2),
    "comments": lambda number: f"Measured comment: 'I was told {number} times.'!\n",
    "classifications": lambda number: f"Measured organization classify: #m{number}: under: 'c{number % 100}'!\n",
    "removals": lambda number: f"Measured removeSelector: #m{number}:!\n",
}
QUERIES = {
    "start": ["recover"],
    "changes": ["changes"],
    "versions of a method": ["versions", "Measured", "m1:"],
    "versions of all's method": ["versions", "Measured", "m0:"],
}


def user_seconds(words, data=b""):
    """The user time of a run on this input, and its output."""
    before = resource.getrusage(resource.RUSAGE_CHILDREN).ru_utime
    out = subprocess.run([PROGRAM, *words], input=data, stdout=subprocess.PIPE, check=True).stdout
    return resource.getrusage(resource.RUSAGE_CHILDREN).ru_utime - before, out


def measured(count, place):
    """The user time of each kind, and of each query behind it."""
    work = os.path.join(place, str(count))
    os.mkdir(work)
    user_seconds([work, "run"], DEFINITION.encode())
    times = {}
    for kind, text in KINDS.items():
        data = "".join(map(text, range(count))).encode()
        times[kind], replies = user_seconds([work, "run"], data)
        assert replies == b"ok\n" * count, replies[:200]
        for query, words in QUERIES.items():
            times[f"{kind}, {query}"], _ = user_seconds([work, *words])
    return times


def main():
    changes = int(sys.argv[1]) if len(sys.argv) > 1 else 10_000
    build()
    with folder() as place:
        half, whole = (measured(count, place) for count in (changes // 2, changes))
        for name, time in whole.items():
            print(f"{name}: {changes} of each kind {time:.3f} s, half {half[name]:.3f} s, ratio {time / max(half[name], 0.001):.2f}")


main()
