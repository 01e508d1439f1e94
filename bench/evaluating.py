#!/usr/bin/env python3
"""DoIts evaluated: messages and block calls in a second, beside the same program in python3.

usage: bench/evaluating.py [TURNS]

The shapes: a loop over timesRepeat:, a recursion, calls of a block, loop and block calls below a deep
stack of activations, items of an Array put and read, and each given to a block; and messages that a
proxy doesn't understand and sends on, beside Python's __getattr__. How much of Python's speed is wanted
is told with each. Times are user seconds of whole processes, the least of three, without those of a
process that evaluates nothing.
"""
import os
import resource
import subprocess
import sys

from common import PROGRAM, build, folder

CLASS = """Object subclass: #Measured
	instanceVariableNames: ''
	classVariableNames: ''
	poolDictionaries: ''
	category: 'Measured'!
!Measured methodsFor: 'measured'!
fib: n
	^n < 2 ifTrue: [n] ifFalse: [(self fib: n - 1) + (self fib: n - 2)]!
below: depth do: aBlock
	^depth = 0 ifTrue: [aBlock value] ifFalse: [self below: depth - 1 do: aBlock]!
next: n
	^n + 1!
perform: aSymbol with: anArgument <primitive: 83>
	^self primitiveFailed! !
Object subclass: #Proxy
	instanceVariableNames: 'target'
	classVariableNames: ''
	poolDictionaries: ''
	category: 'Measured'!
!Proxy methodsFor: 'measured'!
target: anObject
	target _ anObject!
doesNotUnderstand: aMessage
	^target perform: aMessage selector with: (aMessage arguments at: 1)! !
"""

PYTHON = """import sys
sys.setrecursionlimit(20000)

class Measured:
    def fib(self, n):
        return n if n < 2 else self.fib(n - 1) + self.fib(n - 2)

    def below(self, depth, block):
        return block() if depth == 0 else self.below(depth - 1, block)

    def next(self, n):
        return n + 1

class Proxy:
    def __init__(self, target):
        self.target = target

    def __getattr__(self, name):
        return getattr(self.target, name)

def times_repeat(count, block):
    n = 1
    while n <= count:
        block()
        n = n + 1

def loop():
    n = 0
    def add():
        nonlocal n
        n = n + 1
    times_repeat(300000, add)
    return n

def recursion():
    return Measured().fib(24)

def blocks():
    block = lambda x: x + 1
    i = 0
    while i < 300000:
        i = block(i)
    return i

def below(block):
    return Measured().below(900, block)

def array():
    a = [None] * 10
    i = 1
    while i < 100000:
        a[0] = i
        i = a[0] + 1
    return i

def do(items, block):
    for item in items:
        block(item)

def items():
    a = [None] * 1000
    n = 0
    def add(x):
        nonlocal n
        n = n + 1
    times_repeat(100, lambda: do(a, add))
    return n

def proxy():
    proxy = Proxy(Measured())
    i = 0
    while i < 100000:
        i = proxy.next(i)
    return i
"""

LOOP = "n _ 0. 300000 timesRepeat: [n _ n + 1]. n"
BLOCKS = "i _ 0. [i < 300000] whileTrue: [i _ b value: i]. i"

# A shape: its doIt, its program in Python, how many messages and block calls it makes, and what it answers.
SHAPES = {
    "loop": (f"| n | {LOOP}", "loop()", 300_000, 300_000),
    "recursion": ("Measured new fib: 24", "recursion()", 150_049, 46_368),
    "blocks": (f"| b i | b _ [:x | x + 1]. {BLOCKS}", "blocks()", 300_000, 300_000),
    "loop below 900": (f"| n | Measured new below: 900 do: [{LOOP}]", "below(loop)", 300_900, 300_000),
    "blocks below 900": (f"| b i | b _ [:x | x + 1]. Measured new below: 900 do: [{BLOCKS}]", "below(blocks)", 300_900, 300_000),
    "array": ("| a i | a _ Array new: 10. i _ 1. [i < 100000] whileTrue: [a at: 1 put: i. i _ (a at: 1) + 1]. i", "array()", 200_000, 100_000),
    "items": ("| a n | a _ Array new: 1000. n _ 0. 100 timesRepeat: [a do: [:x | n _ n + 1]]. n", "items()", 100_000, 100_000),
    "proxy": ("| p i | p _ Proxy new. p target: Measured new. i _ 0. [i < 100000] whileTrue: [i _ p next: i]. i", "proxy()", 100_000, 100_000),
}


# How much of Python's speed is wanted, where it isn't a third.
WANTED = {"recursion": 0.67, "blocks": 0.67, "blocks below 900": 0.67, "array": 1.0, "items": 1.0}


def user_seconds(command, data):
    """User seconds of a program on this input, and what it wrote."""
    before = resource.getrusage(resource.RUSAGE_CHILDREN).ru_utime
    found = subprocess.run(command, input=data.encode(), stdout=subprocess.PIPE, check=True)
    return resource.getrusage(resource.RUSAGE_CHILDREN).ru_utime - before, found.stdout.decode().splitlines()


def least_seconds(command, data):
    """The least of three runs, and what the last wrote."""
    runs = [user_seconds(command, data) for _ in range(3)]
    return min(seconds for seconds, _ in runs), runs[-1][1]


def here(place, name, doit, turns, answer):
    """User seconds of a doIt, evaluated so often."""
    work = os.path.join(place, name.replace(" ", "-"))
    os.mkdir(work)
    least, replies = user_seconds([PROGRAM, work, "run"], CLASS)
    assert replies == ["ok"] * 8, replies
    seconds, replies = least_seconds([PROGRAM, work, "run"], f"{doit}!\n" * turns)
    assert replies == [f"=> {answer}"] * turns, replies
    return seconds - least


def there(call, turns, answer):
    """The same in Python."""
    least, _ = least_seconds(["python3", "-"], PYTHON)
    seconds, replies = least_seconds(["python3", "-"], PYTHON + f"for _ in range({turns}):\n    print({call})\n")
    assert replies == [str(answer)] * turns, replies
    return seconds - least


def main():
    turns = int(sys.argv[1]) if len(sys.argv) > 1 else 5
    build()
    with folder() as place:
        for name, (doit, call, sends, answer) in SHAPES.items():
            ours, python = here(place, name, doit, turns, answer), there(call, turns, answer)
            print(f"{name}: {turns * sends / ours / 1e6:.2f} million sends a second, python3 {turns * sends / python / 1e6:.2f}, "
                  f"{python / ours:.2f} of its speed (at least {WANTED.get(name, 0.33):.2f} is wanted)", flush=True)


main()
