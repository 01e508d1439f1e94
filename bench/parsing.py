#!/usr/bin/env python3
"""How long the parser takes for texts of 32 KiB and of 64 KiB, shape by shape. Ends with status 1 where the longer text takes more than
2.4 times as long as the shorter one.

The times are user time of the processor, so that other work on the machine matters little.

usage: bench/parsing.py [RUNS]
"""
import resource
import subprocess
import sys
from itertools import count
from statistics import median

from common import PARSER, build_parser

SIZES = (32_768, 65_535)  # a text has at most 65,535 bytes
MOST = 2.4
LEAST = 0.2  # seconds that a run should take, for the clock's sake


def as_many(pieces, size):
    """The first pieces that have at most this many bytes together."""
    text = []
    for piece in pieces:
        size -= len(piece)
        if size < 0:
            break
        text.append(piece)
    return text


def repeated(first, piece, last=""):
    """A shape with one piece again and again between two ends."""
    def text(size):
        return first + piece * ((size - len(first) - len(last)) // len(piece)) + last
    return text


def names(form, size):
    return as_many((form.format(i) for i in count()), size)


def assigned(first, forms, middle, assignment, last=""):
    """A shape with names that are declared, once in each form, and then assigned, in an order that is spread over all of them."""
    def text(size):
        share = size // (len(forms) + 1)
        declared = ["".join(names(form, share)) for form in forms]
        known = len(names(forms[0], share))
        # The steps are by a prime number of names, so that each name has its turn.
        assignments = (assignment.format(i * 7919 % known) for i in count())
        before = first + middle.join(declared + [""])
        return before + "".join(as_many(assignments, size - len(before) - len(last))) + last
    return text


# What a text is parsed as, and the text of each size.
SHAPES = {
    "flat statements": ("doit", repeated("", "a foo. ")),
    "one cascade": ("doit", repeated("a b", "; b")),
    "one keyword message": ("doit", repeated("a", " b: 1")),
    "targets of one value": ("doit", repeated("", "a _ ", "1")),
    "nesting of 60 levels": ("doit", repeated("", "[(" * 30 + "a" + ")]" * 30 + ". ")),
    "nesting with targets": ("doit", repeated("", "[:a|" * 60 + "b _ a" + "]" * 60 + ". ")),
    "one literal array": ("doit", repeated("#(", "1 foo 'ab' $c (2) ", ")")),
    "temporaries": ("method", assigned("m | ", ["a{} "], "| ", "a{} _ 1. ")),
    "temporaries and blocks": ("method", assigned("m | ", ["a{} "], "| ", "[:b | a{} _ b]. ")),
    "parameters as temporaries": ("method", assigned("", ["k: a{} ", "a{} "], "| ", "a{} _ 1. ")),
    "block parameters": ("doit", repeated("[", ":a ", "| a]")),
    "block parameters, assigned": ("doit", assigned("[", [":a{} "], "| ", "a{} _ 1. ", "]")),
    "one comment": ("doit", repeated('"', 'it""s ', '"')),
    "one string": ("doit", repeated("'", "it''s ", "'")),
}


def user_seconds(kind, text, times):
    """The user time of a run that parses a text so many times, and once more for its answer."""
    before = resource.getrusage(resource.RUSAGE_CHILDREN).ru_utime
    found = subprocess.run([PARSER, kind, str(times)], input=text, stdout=subprocess.PIPE, check=True)
    assert found.stdout == b"tree\n", found.stdout
    return resource.getrusage(resource.RUSAGE_CHILDREN).ru_utime - before


def times_enough(kind, text):
    """How often a text is parsed, so that a run takes long enough."""
    times = 1
    while user_seconds(kind, text, times) < LEAST:
        times *= 2
    return times


def parsing_seconds(kind, texts, runs):
    """The time that one parse of each text takes, without the program's start and the reading of the text. The texts take turns."""
    times = [times_enough(kind, text) for text in texts]
    taken = [
        [(user_seconds(kind, text, many) - user_seconds(kind, text, 0)) / many for text, many in zip(texts, times)]
        for _ in range(runs)
    ]
    return map(median, zip(*taken))


def main():
    runs = int(sys.argv[1]) if len(sys.argv) > 1 else 7
    build_parser()
    ratios = []
    for name, (kind, shape) in SHAPES.items():
        texts = [shape(size).encode() for size in SIZES]
        assert all(0.99 * size < len(text) <= size for text, size in zip(texts, SIZES)), name
        shorter, longer = parsing_seconds(kind, texts, runs)
        ratios.append(longer / shorter)
        print(f"{name}: 32 KiB {shorter * 1000:.3f} ms, 64 KiB {longer * 1000:.3f} ms, "
              f"ratio {longer / shorter:.2f} (at most {MOST} is wanted)", flush=True)
    sys.exit(1 if max(ratios) > MOST else 0)


main()
