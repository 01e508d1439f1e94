"""What the trials share: the program and its runs, the model's course of a command, folders, and the count of what was looked at."""
import argparse
import random
import re
import shutil
import subprocess
import sys
import tempfile
from pathlib import Path
from typing import NamedTuple

import links
from keeper import Damage, Item, Keeper, items_of, kernel_of, made_items, made_line, marked_part, spec, without_moment
from language import SEPARATORS

TOP = Path(__file__).resolve().parent.parent
BUILT = TOP / "crates/st80/out/st80"
FILES = ["mark", "log0", "log1", "image0", "image1"]
LINES = {
    3: b"st80: read fault\n",
    4: b"st80: write fault\n",
    5: b"st80: disk fault\n",
    6: b"st80: damaged\n",
    7: b"st80: out of memory\n",
    8: b"st80: input too long\n",
}
LONGEST_RUN = 120


class Outcome(NamedTuple):
    status: int
    out: bytes
    err: bytes


class Program:
    def __init__(self, path):
        self.path = Path(path).resolve()

    def start(self, folder, *words, **how):
        pipe = subprocess.PIPE
        streams = {"stdin": pipe, "stdout": pipe, "stderr": pipe}
        return subprocess.Popen([self.path, folder, *words], **{**streams, **how})

    def run(self, folder, *words, text=b"", **how):
        running = self.start(folder, *words, **how)
        try:
            out, err = running.communicate(text, timeout=LONGEST_RUN)
        except subprocess.TimeoutExpired:
            running.kill()
            sys.exit(f"FAILED: a run took more than {LONGEST_RUN} seconds: {words} in {folder}, on {text[:1000]!r}")
        return Outcome(running.returncode, out or b"", err or b"")

    def keeper(self, answers):
        """The model over the kernel that this program shows in a new folder."""
        with tempfile.TemporaryDirectory() as folder:
            return Keeper(kernel_of(lambda *words: self.run(folder, *words).out), answers)


# ---- commands by the model


class Command(NamedTuple):
    """The words behind the folder, and the input."""

    words: tuple
    text: bytes = b""

    def items(self):
        """The items that it works, or None where it asks something."""
        if self.takes_input():
            return items_of(self.text)
        if self.words[0] == "condense":
            return [Item("condense")]
        if self.words[0] == "make":
            return made_items(int(self.words[1])) + [Item("condense")]
        texts = {"do": self.words[-1], "snapshot": b"Smalltalk snapshot"}
        return [Item("plain", texts[self.words[0]].lstrip(SEPARATORS))] if self.words[0] in texts else None

    def takes_input(self):
        return self.words[0] in ("run", "merge")

    def works_items(self):
        return self.items() is not None


class Course:
    """What a command is answered from a list on, where all replies are known: the work before and behind each item, and the bytes that
    are written by then."""

    def __init__(self, keeper, work, command):
        self.works, self.told = [work._replace(section=None)], [b""]
        self.is_trouble, self.is_merge = False, command.words[0] == "merge"
        if self.is_merge:
            return self.merge(keeper, command)
        items = command.items()
        if items is None:
            reply, self.is_trouble = keeper.told(work, *command.words)
            self.works.append(self.works[0])
            self.told.append(reply)
        replies = []
        for item in items or []:
            way = keeper.ways(self.works[-1], item)[0]
            replies.append(way.reply)
            self.works.append(way.work)
            self.told.append(self.told[-1] + (b"" if command.words[0] == "make" else way.reply))
            self.is_trouble |= way.is_trouble
        if command.words[0] == "make":
            self.told[-1] = made_line(int(command.words[1]), replies)
        self.outcome = Outcome(int(self.is_trouble), self.told[-1], b"")

    def merge(self, keeper, command):
        """All is written behind the last change that is added."""
        merged = keeper.merged(self.works[0], command.items())[0]
        self.works = [*merged.works, merged.works[-1]]
        self.told = [b""] * len(merged.works) + [merged.reply]
        self.is_trouble = merged.is_trouble
        self.outcome = Outcome(int(self.is_trouble), merged.reply, b"")

    def adds_nothing(self):
        return self.works[-1].age == self.works[0].age

    def kinds(self):
        """What is counted of each reply that isn't empty."""
        return [kind_of(told[len(before) :]) for before, told in zip(self.told, self.told[1:]) if told != before]

    def is_front(self, out):
        return self.told[-1].startswith(out)

    def answered(self, out):
        """The work behind the last reply that is whole in these bytes."""
        last = max(at for at, told in enumerate(self.told) if len(told) <= len(out))
        first = min(at for at, told in enumerate(self.told) if told == self.told[last])
        return self.works[first]

    def may_follow(self, out):
        """The lists for which a folder may stand where the run broke off behind these bytes: none is lost, and a group may be kept."""
        if self.is_merge and out:
            return by_log(self.works[-1:])
        least = self.answered(out)
        return by_log(self.works[next(at for at, work in enumerate(self.works) if work is least) :])


def kind_of(reply):
    """What is counted of a reply: its number, and the kind of fault or limit."""
    found = re.match(rb"merged|conflict|refused (?:2 [a-z-]+|3 too large [a-z]+|11 too many [a-z-]+( variables)?|[0-9]+)|ok$", reply)
    return found[0].decode() if found else "answers and stops"


# ---- folders


def by_log(works):
    return {work.log: work for work in works}


def files_of(folder):
    """The bytes of each file, None for an absent one."""
    paths = {name: Path(folder) / name for name in FILES}
    return {name: path.read_bytes() if path.exists() else None for name, path in paths.items()}


def make_folder(folder, files):
    shutil.rmtree(folder, ignore_errors=True)
    Path(folder).mkdir()
    for name, held in files.items():
        if held is not None:
            (Path(folder) / name).write_bytes(held)


def standing(program, keeper, folder, works):
    """The one of these works, by their logs, for which the folder stands: by its files and by `recover`. Or a word on what is found."""
    try:
        log, count = marked_part(files_of(folder))
    except Damage as damage:
        return str(damage)
    if log not in works:
        return f"the log {log!r}, where one of {list(works)} is right"
    work = works[log]
    if count != work.count:
        return f"{count} changes, where {work.count} is right"
    found = program.run(folder, "recover")
    wanted = Outcome(0, keeper.recovered(work), b"")
    return work if found == wanted else f"{found}, where {wanted} is right"


def queries(work, kernel):
    """A query of all classes and one of the change set, and a file of each; one of each class that isn't as the kernel's, and its file; one of
    each method in whose place the kernel has another, and one of the versions of each that was put more than once or isn't there; one of the
    senders, implementors and references of what such methods send, are and refer to, and one of the names to which nothing answers."""
    yield from (Command((word,)) for word in ("classes", "changes", "file-out", "file-out-set", "undeclared", "unimplemented", "unsent"))
    for command, words in zip(("senders", "implementors", "references"), words_to_seek(work, kernel)):
        yield from (Command((command, word)) for word in words if not is_option(word))
    for name, row in sorted(work.state.classes.items()):
        if row != kernel.classes.get(name):
            yield from (Command((word, name)) for word in ("browse", "file-out-class"))
    yield from (Command(("versions", spec(name, side), selector)) for name, side, selector in versions_to_ask(work))
    for (name, side), methods in sorted(work.state.methods.items()):
        for selector, row in sorted(methods.items()):
            if row != kernel.side(name, side).get(selector) and not is_option(selector):
                yield Command(("source", spec(name, side), selector))


def words_to_seek(work, kernel):
    """What methods that aren't the kernel's send and have as selectors, and the outer names to which they refer."""
    methods = [method for method in links.methods_of(work.state)
               if work.state.side(method.name, method.side)[method.selector] != kernel.side(method.name, method.side).get(method.selector)]
    return (sorted({selector for method in methods for selector in method.sent}), sorted({method.selector for method in methods}),
            sorted({name for method in methods for name in method.outer}))


def versions_to_ask(work):
    """The places of methods that were put more than once, or are there no more."""
    places = [change.place() for change in work.changes if change.word == "method" and not is_option(change.selector)]
    return sorted({(name, side, selector) for name, side, selector in places
                   if places.count((name, side, selector)) > 1 or selector not in work.state.side(name, side)})


def is_option(word):
    return len(word) > 1 and word.startswith(b"-")


def untimed(outcome):
    """An outcome as the model tells it, which has no clock."""
    return outcome._replace(out=without_moment(outcome.out))


def differing_query(program, keeper, folder, work):
    """A query that isn't answered as the work has it, and its outcome; or None."""
    for query in queries(work, keeper.kernel):
        found, wanted = untimed(program.run(folder, *query.words)), Course(keeper, work, query).outcome
        if found != wanted:
            return f"{query.words}: {found}, where {wanted} is right"
    return None


# ---- a trial


class Trial:
    """The words of a trial, its place, its chance, and what it counts. A failure keeps the folder."""

    def __init__(self, doc, **more):
        parser = argparse.ArgumentParser(description=doc, formatter_class=argparse.RawDescriptionHelpFormatter)
        parser.add_argument("--program", help="left out, that of crates/st80/out, which bin/st80 builds where need be")
        seed = random.SystemRandom().randrange(1 << 32)
        parser.add_argument("--seed", type=int, default=seed, help="of what is left to chance; a failure names it")
        for name, (default, text) in more.items():
            kind = {"action": "store_true"} if default is False else {"type": type(default), "default": default}
            parser.add_argument(f"--{name}", help=f"{text} ({default})" if default else text, **kind)
        self.options = parser.parse_args()
        if not self.options.program:
            subprocess.run([TOP / "bin/st80"], capture_output=True)
        self.program = Program(self.options.program or BUILT)
        if not self.program.path.is_file():
            sys.exit(f"there is no program {self.program.path}")
        self.chance = random.Random(self.options.seed)
        self.counts, self.failed = {}, 0

    def __enter__(self):
        self.held = tempfile.TemporaryDirectory(prefix="st80-")
        self.place = Path(self.held.name)
        return self

    def __exit__(self, *_):
        self.held.cleanup()

    def fresh(self, name="F"):
        """A new folder."""
        make_folder(self.place / name, {})
        return self.place / name

    def count(self, what, more=1):
        self.counts[what] = self.counts.get(what, 0) + more

    def fail(self, text, folder=None):
        self.failed += 1
        print(f"FAILED (seed {self.options.seed}) {text}", flush=True)
        if folder is not None:
            kept = Path(tempfile.mkdtemp(prefix="st80-failed-"))
            shutil.copytree(folder, kept, dirs_exist_ok=True)
            print(f"  the folder is kept: {kept}", flush=True)

    def check(self, name, wanted, found, folder=None):
        """Whether it is as wanted."""
        self.count("checks")
        if wanted != found:
            self.fail(f"{name}\n  wanted: {wanted!r}\n  found:  {found!r}", folder)
        return wanted == found

    def end(self):
        """Says what was done; the status of the script."""
        print(", ".join([*(f"{count} {what}" for what, count in self.counts.items()), f"{self.failed} failed (seed {self.options.seed})"]))
        return 1 if self.failed or not self.counts else 0
