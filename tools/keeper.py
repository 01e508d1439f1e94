"""A plain model of the keeper, by docs/COMMANDS.md, docs/FORMATS.md and docs/LANGUAGE.md: what an item or a query is answered, and the list
of changes behind it. It shares nothing with the program.

It doesn't compile: whether a text fits a machine it can't tell, nor what a doIt comes to. So an item may be answered in several ways. Each
is a text, or a pattern that the reply must have, and the work that follows it."""
import itertools
import re
import struct
from typing import NamedTuple

import language
import links
from language import SEPARATORS, Fault, is_name, parse_doit, parse_method

LONGEST = 65_535
KINDS = {b"subclass:": "plain", b"variableSubclass:": "pointers", b"variableByteSubclass:": "bytes", b"variableWordSubclass:": "words"}
LISTS = [b"instanceVariableNames:", b"classVariableNames:", b"poolDictionaries:"]
CLASSES, INSTANCE_VARIABLES, CLASS_VARIABLES, CLASS_SIDE_VARIABLES, POOLS, METHODS = 65_536, 64, 256, 64, 256, 16_384
# The forms beside definitions: the messages that they send, the change that they ask for, and the kinds of the last message's arguments.
FORMS = {
    (b"class", b"instanceVariableNames:"): ("class-variables", ["string"]),
    (b"comment:",): ("comment", ["string"]),
    (b"removeSelector:",): ("remove", ["symbol"]),
    (b"class", b"removeSelector:"): ("remove", ["symbol"]),
    (b"organization", b"classify:under:"): ("classify", ["symbol", "string"]),
    (b"class", b"organization", b"classify:under:"): ("classify", ["symbol", "string"]),
    (b"removeFromSystem",): ("remove-class", []),
}
SMALLTALK_FORMS = {
    (b"removeClassNamed:",): ("remove-class", ["symbol"]),
    (b"noChanges",): ("noChanges", []),
    (b"snapshot",): ("snapshot", []),
    (b"condenseChanges",): ("condense", []),
}
NOTE = b'"----SNAPSHOT----"'
SIDES = ("instance", "class")
# A text of so few bytes fits every machine.
SURELY_FITS = 32
MEASURES = {b"literals": 60, b"temporaries": 31, b"stack": 32, b"weight": 1_000}
STOPS = [rb"1 error .*", rb"2 not understood [A-Za-z0-9]+( class)? .+", rb"3 not boolean", rb"4 cannot return", rb"5 block active",
         rb"6 objects full [0-9]+", rb"7 too deep", rb"8 transcript full", rb"9 budget 1000000"]
VALUE, STOPPED = re.compile(rb"(.*\n)?=> .*\n", re.S), re.compile(rb"(.*\n)?stopped (" + b"|".join(STOPS) + rb")\n", re.S)


# ---- chunk files


class Item(NamedTuple):
    """An item of an input: plain, head, method, end or unended, and its text, of any length; or condense, beside an input."""

    kind: str
    text: bytes = b""


def skip(data, at):
    while at < len(data) and data[at] in SEPARATORS:
        at += 1
    return at


def spelled_text(data, at):
    """The text that ends at the first mark which isn't doubled, and the place behind it; or None."""
    parts = []
    while (mark := data.find(b"!", at)) >= 0:
        parts.append(data[at:mark])
        if data[mark + 1 : mark + 2] != b"!":
            return b"".join(parts), mark + 1
        parts.append(b"!")
        at = mark + 2
    return None


def items_of(data):
    items, at, in_section = [], skip(data, 0), False
    while at < len(data):
        kind = "method" if in_section else "plain"
        if data[at : at + 1] == b"!" and not in_section:
            kind, at = "head", skip(data, at + 1)
        found = spelled_text(data, at)
        if not found:
            return items + [Item("unended")]
        text, at = found
        if text:
            items.append(Item(kind, text))
        elif in_section:
            items.append(Item("end"))
        in_section = bool(text) and kind != "plain"
        at = skip(data, at)
    return items


def made_items(count):
    """The items of so many classes of generated input."""
    items = []
    for number in range(1, count + 1):
        name = b"Gen%d" % number
        above = b"Gen%d" % (number // 2) if number > 1 else b"Object"
        row = Class(above, "plain", ((b"v%d" % number,), (), ()), b"gen")
        methods = [Item("method", b"m%d: x ^x + %d" % (place, 10 * number + place)) for place in range(10)]
        items += [Item("plain", row.text(name)), Item("head", name + b" methodsFor: 'gen'"), *methods, Item("end"), Item("plain", b"%s new m9: %d" % (name, number))]
    return items


def made_line(count, replies):
    """What is written of the replies to these items, and to condensing behind them."""
    refused, stopped = (sum(reply.startswith(word) for reply in replies) for word in (b"refused ", b"stopped "))
    total = sum(int(reply[3:]) for reply in replies if re.fullmatch(rb"=> -?[0-9]+\n", reply))
    return b"made %d classes, %d refused, %d stopped, sum %d\n" % (count, refused, stopped, total)


def spell(text):
    return text.replace(b"!", b"!!") + b"!"


def quoted(text):
    return b"'" + text.replace(b"'", b"''") + b"'"


# ---- changes


class Class(NamedTuple):
    superclass: bytes
    kind: str
    lists: tuple
    category: bytes
    comment: bytes = b""
    side_variables: tuple = ()

    def text(self, name):
        word = next(word for word, kind in KINDS.items() if kind == self.kind)
        lines = [word_of + b" " + quoted(b" ".join(names)) for word_of, names in zip(LISTS, self.lists)]
        return b"\n\t".join([self.superclass + b" " + word + b" #" + name, *lines, b"category: " + quoted(self.category)])


class Head(NamedTuple):
    name: bytes
    side: str
    category: bytes

    def text(self):
        return spec(self.name, self.side) + b" methodsFor: " + quoted(self.category)


def spec(name, side):
    return name + b" class" if side == "class" else name


class Change(NamedTuple):
    """A change of the list: the word of its line in the change set, or doIt, noChanges or snapshot; its class, side and selector; and what
    it puts: a class, names, a comment, a category, a method's category and source, or a doIt's text."""

    word: str
    name: bytes = b""
    side: str = "instance"
    selector: bytes = b""
    put: object = None

    def place(self):
        return self.name, self.side, self.selector

    def block(self):
        if self.word != "method":
            return spell(self.text()) + b"\n"
        category, source = self.put
        return b"!" + spell(Head(self.name, self.side, category).text()) + b"\n" + spell(source) + b" !\n"

    def text(self):
        texts = {
            "define": lambda: self.put.text(self.name),
            "class-variables": lambda: self.name + b" class instanceVariableNames: " + quoted(b" ".join(self.put)),
            "comment": lambda: self.name + b" comment: " + quoted(self.put),
            "remove": lambda: spec(self.name, self.side) + b" removeSelector: #" + self.selector,
            "classify": lambda: spec(self.name, self.side) + b" organization classify: #" + self.selector + b" under: " + quoted(self.put),
            "remove-class": lambda: b"Smalltalk removeClassNamed: #" + self.name,
            "noChanges": lambda: b"Smalltalk noChanges",
            "snapshot": lambda: NOTE,
            "doIt": lambda: self.put,
        }
        return texts[self.word]()

    def line(self):
        """Of the change set."""
        of = spec(self.name, self.side) + b" " + self.selector
        return self.word.encode() + b" " + of.strip() + b"\n"


def names_in(text):
    return tuple(re.findall(rb"[^ \t\n\f\r]+", text))


def definition_of(doit):
    """The change that a definition asks for, or None where the doIt is no such form."""
    sent = language.sole_messages(doit)
    if not sent or len(sent[1]) != 1:
        return None
    selector, arguments = sent[1][0]
    word = selector[: selector.find(b":") + 1]
    if word not in KINDS or selector != word + b"".join(LISTS) + b"category:":
        return None
    texts = language.literals(arguments, ["symbol"] + ["string"] * 4)
    if not texts:
        return None
    return Change("define", texts[0], put=Class(sent[0], KINDS[word], tuple(map(names_in, texts[1:4])), texts[4]))


def form_of(doit):
    """The change that a doIt of another form asks for, or None."""
    sent = language.sole_messages(doit)
    if not sent or not sent[1]:
        return None
    name, messages = sent
    selectors = tuple(selector for selector, _ in messages)
    found = FORMS.get(selectors) or (SMALLTALK_FORMS.get(selectors) if name == b"Smalltalk" else None)
    texts = found and language.literals(messages[-1][1], found[1])
    if texts is None:
        return None
    side = "class" if selectors[0] == b"class" else "instance"
    changes = {
        "class-variables": lambda: Change("class-variables", name, put=names_in(*texts)),
        "comment": lambda: Change("comment", name, put=texts[0]),
        "remove": lambda: Change("remove", name, side, *texts),
        "classify": lambda: Change("classify", name, side, *texts),
        "remove-class": lambda: Change("remove-class", *texts or [name]),
    }
    return changes[found[0]]() if found[0] in changes else Change(found[0])


def head_of(doit):
    sent = language.sole_messages(doit)
    if not sent or not sent[1] or [selector for selector, _ in sent[1]] not in ([b"methodsFor:"], [b"class", b"methodsFor:"]):
        return None
    texts = language.literals(sent[1][-1][1], ["string"])
    return Head(sent[0], "class" if len(sent[1]) == 2 else "instance", texts[0]) if texts else None


# ---- what a list of changes makes


class State(NamedTuple):
    """The classes by name, and the methods: for a class and a side the category and source of each selector."""

    classes: dict
    methods: dict

    def line(self, name):
        """A class and its superclasses, the nearest first."""
        while name in self.classes:
            yield self.classes[name]
            name = self.classes[name].superclass

    def names_above(self, name):
        while name in self.classes:
            yield name
            name = self.classes[name].superclass

    def with_class(self, name, row):
        return self._replace(classes={**self.classes, name: row})

    def with_side(self, name, side, methods):
        return self._replace(methods={**self.methods, (name, side): methods})

    def after(self, change):
        """The state behind a change that is accepted."""
        name, side, selector = change.place()
        row, methods = self.classes.get(name), self.side(name, side)
        if change.word == "define":
            kept = {"comment": row.comment, "side_variables": row.side_variables} if row else {}
            return self.with_class(name, change.put._replace(**kept))
        if change.word == "class-variables":
            return self.with_class(name, row._replace(side_variables=change.put))
        if change.word == "comment":
            return self.with_class(name, row._replace(comment=change.put))
        if change.word == "method":
            return self.with_side(name, side, {**methods, selector: change.put})
        if change.word == "classify":
            return self.with_side(name, side, {**methods, selector: (change.put, methods[selector][1])})
        if change.word == "remove":
            return self.with_side(name, side, {other: method for other, method in methods.items() if other != selector})
        if change.word == "remove-class":
            classes = {other: row for other, row in self.classes.items() if other != name}
            return State(classes, {place: methods for place, methods in self.methods.items() if place[0] != name})
        return self

    def side(self, name, side):
        return self.methods.get((name, side), {})

    def variables(self, name):
        return sum(len(row.lists[0]) for row in self.line(name))

    def side_variables(self, name):
        return sum(len(row.side_variables) for row in self.line(name))

    def family(self, name):
        """The class and its descendants."""
        return [other for other in self.classes if name in self.names_above(other)]

    def has_bits(self, name):
        return next((row.kind for row in self.line(name) if row.kind != "plain"), "plain") in ("bytes", "words")

    def place_for(self, name, side, selector):
        """The class and the side of the method that a message to an instance of the class, or to the class, finds."""
        places = [(above, side) for above in self.names_above(name)]
        if side == "class":
            places += [(above, "instance") for above in self.names_above(b"Class")]
        return next((place for place in places if selector in self.side(*place)), None)

    def method_for(self, name, side, selector):
        """Its category and source."""
        place = self.place_for(name, side, selector)
        return self.side(*place)[selector] if place else None


def refusal_of(state, kernel, change):
    """Why the classes and methods refuse a form, or None."""
    name, side, selector = change.place()
    if change.word == "define":
        return definition_refusal(state, kernel, name, change.put)
    if change.word in ("noChanges", "snapshot"):
        return None
    bad = [word for word in change.put if not is_name(word)] if change.word == "class-variables" else []
    if bad:
        return b"9 bad name " + bad[0]
    if name not in state.classes:
        return b"4 unknown class " + name
    if change.word in ("class-variables", "remove-class") and name in kernel.classes:
        return b"5 kernel class " + name
    if change.word == "class-variables":
        after = state.after(change)
        return duplicate([change.put]) or first_above([side_variables_count(after, name)])
    if change.word == "remove-class" and any(row.superclass == name for row in state.classes.values()):
        return b"6 has subclasses " + name
    if change.word in ("remove", "classify") and selector not in state.side(name, side):
        return b"10 no selector " + spec(name, side) + b" " + selector
    return None


def definition_refusal(state, kernel, name, row):
    names = [word for names in row.lists for word in names]
    is_class_name = is_name(name) and name[:1].isupper() and name not in (b"Smalltalk", b"Transcript")
    bad = ([] if is_class_name else [name]) + [word for word in names if not is_name(word)]
    if bad:
        return b"9 bad name " + bad[0]
    if row.superclass not in state.classes:
        return b"4 unknown class " + row.superclass
    if name in kernel.classes:
        return b"5 kernel class " + name
    if name in state.names_above(row.superclass):
        return b"7 cycle " + name
    return duplicate(row.lists) or too_many(state.after(Change("define", name, put=row)), name, row)


def duplicate(lists):
    twice = [word for names in lists for at, word in enumerate(names) if word in names[:at]]
    return b"8 duplicate " + twice[0] if twice else None


def too_many(state, name, row):
    family = state.family(name)
    return first_above([
        (b"classes", len(state.classes), CLASSES),
        (b"instance variables", max(map(state.variables, family)), INSTANCE_VARIABLES),
        (b"class variables", len(row.lists[1]), CLASS_VARIABLES),
        side_variables_count(state, name),
        (b"pools", len(row.lists[2]), POOLS),
        (b"bits variables", max(state.variables(other) if state.has_bits(other) else 0 for other in family), 0),
    ])


def side_variables_count(state, name):
    return b"class-side variables", max(map(state.side_variables, state.family(name))), CLASS_SIDE_VARIABLES


def first_above(counts):
    return next((b"11 too many %s %d" % (kind, count) for kind, count, limit in counts if count > limit), None)


# ---- what is told of the whole list


def change_set(changes):
    """The changes of the change set."""
    return [changes[at] for at in set_numbers(changes)]


def set_numbers(changes):
    """Which changes are those of the change set."""
    first = max((at + 1 for at, change in enumerate(changes) if change.word == "noChanges"), default=0)
    numbers = [at for at in range(first, len(changes)) if not is_superfluous(changes[at], changes[at + 1 :])]
    return [at for at in numbers if changes[at].word not in ("doIt", "snapshot")]


def is_superfluous(change, later):
    """Whether a later change puts the same, and nothing in between removes it."""
    by = {"method": "method", "classify": "method", "comment": "comment"}.get(change.word)
    at = next((at for at, other in enumerate(later) if other.word == by and other.place() == change.place()), None)
    return at is not None and not any(removes(other, change) for other in later[:at])


def removes(removal, change):
    if removal.word == "remove-class":
        return removal.name == change.name
    return removal.word == "remove" and removal.place() == change.place()


def lines_of(methods):
    return b"".join(b"%s %s\n" % (spec(method.name, method.side), method.selector) for method in methods)


def names_told(names):
    return b"".join(name + b"\n" for name in names)


def versions(changes, name, side, selector):
    """The category and source of each version of a method, the oldest first."""
    return [change.put for change in changes if change.word == "method" and change.place() == (name, side, selector)]


# ---- merging

# The kinds of keys, in the order in which conflicts are told.
KEYS = ["class", "definition", "class-variables", "comment", "method"]
# The change that writes a key of its class alone.
WRITES = {"class-variables": "class-variables", "comment": "comment"}


def is_command(item):
    """Whether it asks to condense, of which a merge takes no notice."""
    try:
        change = form_of(parse_doit(item.text)) if item.kind == "plain" and len(item.text) <= LONGEST else None
    except Fault:
        return False
    return bool(change) and change.word == "condense"


def base_of(changes):
    """The changes of a list that a merge starts from: those up to and with the last that begins a set, without doIts."""
    last = max((at + 1 for at, change in enumerate(changes) if change.word == "noChanges"), default=0)
    return [change for change in changes[:last] if change.word not in ("doIt", "snapshot")]


def keys_of(state, change):
    """The keys that a change writes, and those that it uses, as it is worked in this state."""
    name, side, selector = change.place()
    own = {("class", name)}
    if change.word == "define":
        above = {(kind, other) for other in state.names_above(change.put.superclass) for kind in ("class", "definition")}
        is_there = name in state.classes
        return {("definition", name)} | (set() if is_there else own), above | (own if is_there else set())
    if change.word == "remove-class":
        return own | {("definition", name)}, own
    if change.word in WRITES:
        return {(WRITES[change.word], name)}, own
    return {("method", name, side, selector)}, own


def all_keys(state, changes):
    """The keys that changes write and use, worked one after another."""
    written, used = set(), set()
    for change in changes:
        writes, uses = keys_of(state, change)
        written, used, state = written | writes, used | uses, state.after(change)
    return written, used


def conflicts_of(base, ours, theirs):
    """The keys that one of two lists of changes writes, and the other writes or uses, both worked from one state; in their order."""
    (written, used), (written_there, used_there) = all_keys(base, ours), all_keys(base, theirs)
    found = written & (written_there | used_there) | written_there & used
    return sorted(found, key=lambda key: (KEYS.index(key[0]), key[1], *(SIDES.index(word) if word in SIDES else word for word in key[2:])))


def conflict_line(key):
    of = spec(key[1], key[2]) + b" " + key[3] if key[0] == "method" else key[1]
    return b"conflict " + key[0].encode() + b" " + of + b"\n"


# ---- files of changes

# The first line of such a file, by its moment, for which a word stands in what the model tells.
FIRST_LINE = b"'From Smalltalk-80, filed out %s'!\n"
TIMED = re.compile(FIRST_LINE % rb"\d{4}-\d\d-\d\dT\d\d:\d\d:\d\dZ")
UNTIMED = FIRST_LINE % b"MOMENT"


def without_moment(told):
    """What a program told, with that word in place of the moment at which it filed out."""
    found = TIMED.match(told)
    return UNTIMED + told[found.end() :] if found else told


def head_over(change):
    return Head(change.name, change.side, change.put[0]) if change.word == "method" else None


def file_of(changes):
    """The text of a file of changes: neighbouring methods of one class, side and category share a section."""
    parts = [UNTIMED]
    for head, group in itertools.groupby(changes, head_over):
        if head:
            parts += [b"!", spell(head.text()), b"\n", b"\n\n".join(spell(change.put[1]) for change in group), b" !\n"]
        else:
            parts += [change.block() for change in group]
    return b"".join(parts)


def filed(kernel, state):
    """The changes that make a state of the kernel's: those of the kernel's classes, of the others, and of the methods."""
    changes = classes_filed(kernel, state)
    for name, side, selector, put in methods_in_order(state):
        changes += put_over(kernel.side(name, side).get(selector), Change("method", name, side, selector, put))
    return changes


def condensed(kernel, work):
    """The list that takes the place of a work's: of each method its newest version, and the move to its category where it has another."""
    changes = classes_filed(kernel, work.state)
    for name, side, selector, (category, _) in methods_in_order(work.state):
        newest = versions(work.changes, name, side, selector)[-1:]
        changes += [Change("method", name, side, selector, put) for put in newest]
        was = newest[0] if newest else kernel.side(name, side)[selector]
        changes += [Change("classify", name, side, selector, category)] if category != was[0] else []
    return [*changes, Change("noChanges")]


def classes_filed(kernel, state):
    changes = []
    for name in sorted(kernel.classes):
        changes += commented(state, name)
        for side in SIDES:
            changes += [Change("remove", name, side, selector) for selector in sorted(kernel.side(name, side).keys() - state.side(name, side).keys())]
    for name in sorted(state.classes.keys() - kernel.classes.keys(), key=lambda name: (len(list(state.line(name))), name)):
        row = state.classes[name]
        changes += [Change("define", name, put=row), *commented(state, name)]
        changes += [Change("class-variables", name, put=row.side_variables)] if row.side_variables else []
    return changes


def methods_in_order(state):
    """The class, side and selector of each method, and its category and source: by class, side, category and selector."""
    for name, side in itertools.product(sorted(state.classes), SIDES):
        for selector, put in sorted(state.side(name, side).items(), key=lambda method: (method[1][0], method[0])):
            yield name, side, selector, put


def commented(state, name):
    comment = state.classes[name].comment
    return [Change("comment", name, put=comment)] if comment else []


def put_over(row, method):
    """What puts a method in the place of the kernel's, if that has one."""
    if not row or row[1] != method.put[1]:
        return [method]
    return [] if row == method.put else [Change("classify", *method.place(), method.put[0])]


# ---- the keeper at work


class Work(NamedTuple):
    """The state, the changes that made it, their blocks, the section: None, "refused" or a head; and how often the list has changed."""

    state: State
    changes: tuple = ()
    log: bytes = b""
    section: object = None
    age: int = 0

    @property
    def count(self):
        return len(self.changes)

    def kept(self, change):
        return self._replace(state=self.state.after(change), changes=(*self.changes, change), log=self.log + change.block(), age=self.age + 1)

    def replaced(self, changes):
        """By other changes, which make the same state."""
        return self._replace(changes=tuple(changes), log=b"".join(change.block() for change in changes), age=self.age + 1)


class Way(NamedTuple):
    """A reply, or its pattern; whether it is a refusal or a stop; and the work behind it."""

    reply: object
    is_trouble: bool
    work: Work

    def fits(self, told):
        return told == self.reply if isinstance(self.reply, bytes) else bool(self.reply.fullmatch(told))


class Keeper:
    """Answers items and queries over the classes and methods of the kernel. `answers` gives the reply to a doIt, where it is known."""

    def __init__(self, kernel, answers=lambda text, state: None):
        self.kernel, self.answers = kernel, answers

    def beginning(self):
        return Work(self.kernel)

    def ways(self, work, item):
        """How an item may be answered."""
        if item.kind == "unended":
            return [refused(work, b"1 unended")]
        if item.kind == "end":
            return [Way(b"", False, work._replace(section=None))]
        if item.kind == "condense":
            return [self.condensing(work)]
        if item.kind == "method" and work.section == "refused":
            return [Way(b"", False, work)]
        if len(item.text) > LONGEST:
            return [refused(behind_head(work, item), b"3 too large chunk %d" % len(item.text))]
        try:
            return {"plain": self.plain, "head": self.head, "method": self.method}[item.kind](work, item.text)
        except Fault as fault:
            return [refused(behind_head(work, item), b"2 %s at %d" % (fault.kind.encode(), fault.place))]

    def condensing(self, work):
        return Way(b"ok\n", False, work.replaced(condensed(self.kernel, work)))

    def plain(self, work, text):
        doit = parse_doit(text)
        change = definition_of(doit) or form_of(doit)
        if change and change.word == "condense":
            return [self.condensing(work)]
        if change:
            refusal = refusal_of(work.state, self.kernel, change)
            return [refused(work, refusal) if refusal else accepted(work, change)]
        after = work.kept(Change("doIt", put=text))
        known = self.answers(text, work.state)
        if known is not None:
            return [Way(known, bool(STOPPED.fullmatch(known)), after)]
        return [Way(VALUE, False, after), Way(STOPPED, True, after)] + too_large(work, text)

    def head(self, work, text):
        head = head_of(parse_doit(text))
        if not head:
            return [refused(work._replace(section="refused"), b"13 no section " + text)]
        if head.name not in work.state.classes:
            return [refused(work._replace(section="refused"), b"4 unknown class " + head.name)]
        return [Way(b"", False, work._replace(section=head))]

    def method(self, work, text):
        selector, head = parse_method(text), work.section
        side = work.state.side(head.name, head.side)
        count = len(side.keys() | {selector})
        if count > METHODS:
            return [refused(work, b"11 too many methods %d" % count)] + too_large(work, text)
        return [accepted(work, Change("method", head.name, head.side, selector, (head.category, text)))] + too_large(work, text)

    # -- merging

    def merged(self, work, items):
        """How a merge of these items may be answered, as a list of ways. Behind the reply of each stand the works that it goes through."""
        state = self.kernel
        for change in base_of(work.changes):
            state = state.after(change)
        theirs, refusal, may_be_large = self.theirs(state, items)
        ways = [Merged(TooLarge(), True, [work])] if may_be_large else []
        if refusal:
            return [Merged(refusal, True, [work]), *ways]
        conflicts = conflicts_of(state, change_set(work.changes), theirs)
        if conflicts:
            return [Merged(b"".join(map(conflict_line, conflicts)), True, [work]), *ways]
        return [self.joined(work, theirs), *ways]

    def theirs(self, state, items):
        """The changes of the items, worked from a state; or the refusal of the first that is bad; and whether one up to there may be too large."""
        work, changes, may_be_large = Work(state), [], False
        for item in items:
            if is_command(item):
                continue
            way, *others = self.ways(work, item)
            may_be_large |= any(isinstance(other.reply, TooLarge) for other in others)
            if isinstance(way.reply, bytes) and way.reply.startswith(b"refused "):
                return changes, way.reply, may_be_large
            if way.work.changes == work.changes:
                work = way.work
            elif way.work.changes[-1].word not in ("doIt", "snapshot", "noChanges"):
                work = way.work
                changes.append(work.changes[-1])
        return changes, None, may_be_large

    def joined(self, work, theirs):
        """All of these changes are added, up to the first that is refused."""
        works = [work]
        for change in theirs:
            refusal = self.refusal_behind(works[-1].state, change)
            if refusal:
                return Merged(merged_line(len(works) - 1) + b"refused " + refusal + b"\n", True, works)
            works.append(works[-1].kept(change))
        return Merged(merged_line(len(theirs)), False, works)

    def refusal_behind(self, state, change):
        if change.word != "method":
            return refusal_of(state, self.kernel, change)
        if change.name not in state.classes:
            return b"4 unknown class " + change.name
        count = len(state.side(change.name, change.side).keys() | {change.selector})
        return b"11 too many methods %d" % count if count > METHODS else None

    # -- queries

    def told(self, work, command, *words):
        """The reply to a query, and whether it is refused."""
        tell = {"recover": self.recovered, "classes": self.classes, "browse": self.browsed, "source": self.source,
                "versions": self.versions, "changes": self.changes, "file-out": self.file, "file-out-class": self.file_of_class,
                "file-out-set": self.file_of_set, "senders": self.senders, "implementors": self.implementors,
                "references": self.references, "undeclared": self.undeclared, "unimplemented": self.unimplemented, "unsent": self.unsent}
        reply = tell[command](work, *words)
        return (b"refused " + reply[1] + b"\n", True) if isinstance(reply, tuple) else (reply, False)

    def recovered(self, work):
        classes = len(work.state.classes.keys() - self.kernel.classes.keys())
        sides = [(side, self.kernel.side(*place)) for place, side in work.state.methods.items()]
        methods = sum(row != kernels.get(selector) for side, kernels in sides for selector, row in side.items())
        return b"recovered %d changes, %d classes, %d methods\n" % (work.count, classes, methods)

    def classes(self, work):
        return names_told(sorted(work.state.classes))

    def browsed(self, work, name):
        if not is_name(name):
            return None, b"9 bad name " + name
        if name not in work.state.classes:
            return None, b"4 unknown class " + name
        row = work.state.classes[name]
        lines = [row.text(name), b"comment: " + quoted(row.comment), b"class instanceVariableNames: " + quoted(b" ".join(row.side_variables))]
        for side, word in ("instance", b""), ("class", b"class "):
            methods = work.state.side(name, side)
            for category in sorted({row[0] for row in methods.values()}):
                selectors = sorted(selector for selector, row in methods.items() if row[0] == category)
                lines.append(word + quoted(category) + b": " + b" ".join(selectors))
        return b"".join(line + b"\n" for line in lines)

    def changes(self, work):
        return b"".join(change.line() for change in change_set(work.changes))

    def file(self, work):
        return file_of(filed(self.kernel, work.state))

    def file_of_class(self, work, name):
        if not is_name(name):
            return None, b"9 bad name " + name
        if name not in work.state.classes:
            return None, b"4 unknown class " + name
        return file_of(change for change in filed(self.kernel, work.state) if change.name == name)

    def file_of_set(self, work):
        return file_of(change_set(work.changes))

    def senders(self, work, selector):
        return self.sought(work, links.senders, selector, links.is_selector)

    def implementors(self, work, selector):
        return self.sought(work, links.implementors, selector, links.is_selector)

    def references(self, work, name):
        return self.sought(work, links.references, name, is_name)

    def sought(self, work, seek, word, is_lawful):
        return lines_of(seek(work.state, word)) if is_lawful(word) else (None, b"9 bad name " + word)

    def undeclared(self, work):
        return names_told(links.undeclared(work.state))

    def unimplemented(self, work):
        return names_told(links.unimplemented(work.state))

    def unsent(self, work):
        return names_told(links.unsent(work.state))

    def source(self, work, named, selector):
        return self.of_method(work, named, selector, lambda row, versions: row and row[1] + b"\n")

    def versions(self, work, named, selector):
        def told(row, versions):
            lines = [b"version %d %s\n%s\n" % (number, quoted(category), text) for number, (category, text) in enumerate(versions, 1)]
            return b"".join(reversed(lines)) if row or versions else None

        return self.of_method(work, named, selector, told)

    def of_method(self, work, named, selector, tell):
        """What is told by a method, where it is there, and by its versions; or why nothing is."""
        name, side = (named[:-6], "class") if named.endswith(b" class") else (named, "instance")
        if not is_name(name):
            return None, b"9 bad name " + named
        if name not in work.state.classes:
            return None, b"4 unknown class " + name
        told = tell(work.state.side(name, side).get(selector), versions(work.changes, name, side, selector))
        return (None, b"10 no selector " + named + b" " + selector) if told is None else told


class Merged(NamedTuple):
    """A reply to a merge, or its pattern; whether it is trouble; and the works before and behind each change that it adds."""

    reply: object
    is_trouble: bool
    works: list

    def fits(self, told):
        return Way.fits(self, told)


def merged_line(count):
    return b"merged %d changes\n" % count


class TooLarge:
    """The pattern of the refusals of what doesn't fit a machine."""

    def fullmatch(self, told):
        found = re.fullmatch(rb"refused 3 too large ([a-z]+) ([1-9][0-9]*)\n", told)
        return found and int(found[2]) > MEASURES.get(found[1], int(found[2]))


def refused(work, refusal):
    return Way(b"refused " + refusal + b"\n", True, work)


def accepted(work, change):
    return Way(b"ok\n", False, work.kept(change))


def behind_head(work, item):
    """A head that is refused begins a section that is passed over."""
    return work._replace(section="refused") if item.kind == "head" else work


def too_large(work, text):
    return [] if len(text) <= SURELY_FITS else [Way(TooLarge(), True, work)]


# ---- the kernel


def kernel_of(ask):
    """The state of no changes, as the program shows it; `ask` gives the output of a command in a new folder."""
    state = State({}, {})
    for name in ask("classes").split():
        lines = ask("browse", name).decode("latin-1").split("\n")
        first = re.fullmatch(r"(\w+) (\w+:) #(\w+)", lines[0])
        strings = [line.partition(": ")[2][1:-1].replace("''", "'").encode("latin-1") for line in lines[1:5]]
        lists = tuple(tuple(text.split()) for text in strings[:3])
        state = state.with_class(name, Class(first[1].encode(), KINDS[first[2].encode()], lists, strings[3]))
        for line in lines[7:-1]:
            word, category, selectors = re.fullmatch(r"(class )?'(.*)': (.*)", line).groups()
            head = Head(name, "class" if word else "instance", category.replace("''", "'").encode("latin-1"))
            for selector in selectors.encode("latin-1").split(b" "):
                row = head.category, ask("source", spec(name, head.side), selector)[:-1]
                state = state.with_side(name, head.side, {**state.side(name, head.side), selector: row})
    return state


# ---- the files


class Damage(Exception):
    pass


class Mark(NamedTuple):
    """The fields of a slot behind its gate, by docs/FORMATS.md, "The mark"."""

    sequence: int
    log: int
    length: int
    image: int
    image_length: int
    position: int
    form: int
    count: int

    def alone(self):
        """A mark file in which this slot is open, and the other one isn't."""
        return (b"!" + SLOT.pack(*self)).ljust(128, b"\0")


SLOT = struct.Struct(">QBQBQQBQ")


def valid_mark(mark):
    """The fields of the valid mark, or None."""
    slots = [Mark(*SLOT.unpack(mark[at + 1 : at + 44])) for at in (0, 64) if len(mark) >= 128 and mark[at] == 0x21]
    if len(slots) == 2 and 0 < (slots[1].sequence - slots[0].sequence) % 2**64 < 2**63:
        return slots[1]
    return slots[0] if slots else None


def without_image(mark):
    """A mark that takes the same of the log as this one, and names no image; None where this one names none."""
    fields = valid_mark(mark or b"")
    if not fields or fields.image == 255:
        return None
    return fields._replace(image=255, image_length=0, position=0).alone()


def marked_part(files):
    """The part of the log that counts, and the number of changes by the mark; `files` has the bytes by name, None for an absent file."""
    held = {name: bytes or b"" for name, bytes in files.items()}
    if not held["log0"] and not held["log1"]:
        return b"", 0
    fields = valid_mark(held["mark"])
    if not fields:
        raise Damage("no mark")
    _, log, length, image, image_length, position, form, count = fields
    if log > 1 or image not in (0, 1, 255) or form != 2:
        raise Damage("bad mark")
    if len(held[f"log{log}"]) < length:
        raise Damage("the log is short")
    if image != 255 and len(held[f"image{image}"]) < image_length:
        raise Damage("the image is short")
    if image != 255 and position > length:
        raise Damage("the image ends behind the log")
    return held[f"log{log}"][:length], count
