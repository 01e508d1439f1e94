"""A plain reader and writer of images, by docs/FORMATS.md alone: what the bytes spell, or where they are damaged; what a start finds in a folder
with an image; and the image of a list of changes. It shares nothing with the program."""
from typing import NamedTuple

from codes import Code, Shape, compiled, is_verified
from keeper import (CLASS_SIDE_VARIABLES, CLASS_VARIABLES, CLASSES, INSTANCE_VARIABLES, LONGEST, METHODS, POOLS, SIDES, Change, Class, Head, State,
                    definition_of, form_of, head_of, quoted, set_numbers, spec, spell, spelled_text, valid_mark)
from language import SEPARATORS, Fault, is_name, parse_doit, parse_method
from links import is_selector

HEAD, FORMAT = b"S80I", 1
CLASS_LIST = 13
KIND_WORDS = ["plain", "pointers", "bytes", "words"]
CHANGE_WORDS = ["define", "class-variables", "comment", "method", "remove", "classify", "remove-class"]
OF_METHODS = {"method", "remove", "classify"}
ENTRY_TAGS = {0: "small", 1: "character", 2: "string", 3: "symbol", 4: "array", 5: "true", 6: "false", 7: "nil", 8: "number",
              16: "class variable", 17: "outer", 18: "owner", 19: "extension"}
TAGS = {word: tag for tag, word in ENTRY_TAGS.items()}
LAST_OF_ARRAYS = 8


class Wrong(Exception):
    """A damage, by the place at which it is told, and what it is."""

    def __init__(self, place, what):
        super().__init__(place, what)
        self.place, self.what = place, what


class Method(NamedTuple):
    """A method: where its source stands, in the log or in the kernel's text, and its code."""

    selector: bytes
    category: bytes
    is_in_log: bool
    position: int
    length: int
    code: Code


class Row(NamedTuple):
    """A class. Its lists are those of instance variables, class variables, pools and class-side variables; its methods those of both sides."""

    name: bytes
    superclass: bytes
    kind: str
    lists: tuple
    category: bytes
    comment: bytes
    methods: tuple


class Member(NamedTuple):
    """Of the change set."""

    place: int
    word: str
    name: bytes
    side: str
    selector: bytes


class Versions(NamedTuple):
    name: bytes
    side: str
    selector: bytes
    places: tuple

    def key(self):
        return self.name, SIDES.index(self.side), self.selector


class Image(NamedTuple):
    count: int
    classes: tuple
    changes: tuple
    versions: tuple


# ---- names


def is_class_name(word):
    return is_name(word) and word[:1].isupper() and word not in (b"Smalltalk", b"Transcript")


def anything(value):
    return True


def one_of(*values):
    return lambda value: value in values


def at_most(limit):
    return lambda value: value <= limit


def behind(before, is_lawful=anything):
    """What is lawful for a member of a list in order, behind the one before it, if there is one."""
    return lambda value: is_lawful(value) and (before is None or value > before)


# ---- reading


class Places(NamedTuple):
    """Where the fields of a class begin that are looked at once all classes are read."""

    superclass: int
    variables: int
    side_variables: int


class Reader:
    """Reads fields in their order, and notes where each begins, and of each class from where to where it reaches. `kernel` has the rows of the
    kernel's classes by their names."""

    def __init__(self, data, kernel):
        self.data, self.kernel, self.at = data, kernel, 0
        self.fields, self.places, self.spans = [], [], {}

    def take(self, size):
        if self.at + size > len(self.data):
            raise Wrong(len(self.data), "ends early")
        self.at += size
        return self.data[self.at - size : self.at]

    def field(self, take, is_lawful):
        start = self.at
        self.fields.append(start)
        found = take()
        if not is_lawful(found):
            raise Wrong(start, "field")
        return found

    def number(self, size, is_lawful=anything, signed=False):
        return self.field(lambda: int.from_bytes(self.take(size), "big", signed=signed), is_lawful)

    def text(self, is_lawful=anything):
        return self.field(lambda: self.take(int.from_bytes(self.take(4), "big")), is_lawful)

    def members(self, read, is_lawful=anything):
        """A list, by what reads a member of it from the one before."""
        found = []
        for _ in range(self.number(4, is_lawful)):
            found.append(read(found[-1] if found else None))
        return tuple(found)

    def word(self, words):
        return words[self.number(1, at_most(len(words) - 1))]

    def image(self):
        for byte in HEAD:
            self.number(1, one_of(byte))
        self.number(1, one_of(FORMAT))
        count = self.number(8)
        classes = self.members(self.row, at_most(CLASSES))
        changes = self.members(self.member)
        versions = self.members(self.version)
        if self.at < len(self.data):
            raise Wrong(self.at, "rest")
        self.together(classes)
        return Image(count, classes, changes, versions)

    # -- classes

    def row(self, before):
        start = self.at
        name = self.text(behind(before and before.name, is_class_name))
        own = self.kernel.get(name)
        fixed = (lambda value: one_of(value)) if own else (lambda value: anything)
        places = [self.at]
        superclass = self.text(fixed(own and own.superclass))
        kind = KIND_WORDS[self.number(1, one_of(KIND_WORDS.index(own.kind)) if own else at_most(3))]
        lists = []
        for at, limit in enumerate([INSTANCE_VARIABLES, CLASS_VARIABLES, POOLS, CLASS_SIDE_VARIABLES]):
            places.append(self.at)
            lists.append(self.names(limit, own and own.lists[at]))
        self.places.append(Places(places[0], places[1], places[4]))
        category = self.text(fixed(own and own.category))
        comment = self.text()
        methods = tuple(self.members(self.method, at_most(METHODS)) for _ in SIDES)
        self.spans[name] = range(start, self.at)
        return Row(name, superclass, kind, tuple(lists), category, comment, methods)

    def names(self, limit, own):
        """A list of names of variables, which a class of the kernel has as its row."""
        found = []
        for at in range(self.number(4, at_most(limit) if own is None else one_of(len(own)))):
            found.append(self.text(lambda word: is_name(word) and word not in found and (own is None or word == own[at])))
        return tuple(found)

    def method(self, before):
        selector = self.text(behind(before and before.selector, is_selector))
        category = self.text()
        is_in_log = self.number(1, at_most(1)) == 1
        position, length = self.number(8), self.number(8)
        return Method(selector, category, is_in_log, position, length, self.code())

    # -- codes

    def code(self):
        flag, arguments, primitive, temporaries = (self.number(1) for _ in range(4))
        is_large = self.number(1, at_most(1)) == 1
        entries = self.members(lambda _: self.entry(TAGS))
        code = Code(flag, arguments, primitive, temporaries, is_large, entries, self.text())
        if not is_verified(code):
            raise Wrong(len(self.data), "unverified")
        return code

    def entry(self, words):
        word = ENTRY_TAGS[self.number(1, lambda tag: ENTRY_TAGS.get(tag) in words)]
        parts = {
            "small": lambda: (self.number(4, signed=True),),
            "character": lambda: (self.number(1),),
            "string": lambda: (self.text(),),
            "symbol": lambda: (self.text(),),
            "array": lambda: (self.members(lambda _: self.entry([ENTRY_TAGS[tag] for tag in range(LAST_OF_ARRAYS + 1)])),),
            "number": lambda: (self.number(1, at_most(2)), self.text()),
            "class variable": lambda: (self.text(is_class_name), self.text(is_name)),
            "outer": lambda: (self.text(is_name),),
            "owner": lambda: (self.text(is_class_name), self.word(SIDES)),
            "extension": lambda: (self.number(4),),
        }
        return (word, *parts[word]()) if word in parts else (word,)

    # -- history

    def member(self, before):
        place = self.number(8, behind(before and before.place))
        word = self.word(CHANGE_WORDS)
        name = self.text(is_class_name)
        if word in OF_METHODS:
            return Member(place, word, name, self.word(SIDES), self.text(is_selector))
        return Member(place, word, name, SIDES[self.number(1, one_of(0))], self.text(one_of(b"")))

    def version(self, before):
        name, side = self.text(is_class_name), self.word(SIDES)
        found = Versions(name, side, b"", ())
        selector = self.text(lambda word: is_selector(word) and (before is None or found._replace(selector=word).key() > before.key()))
        places = self.members(lambda last: self.number(8, behind(last)), lambda count: count > 0)
        return Versions(name, side, selector, places)

    # -- all classes together

    def together(self, classes):
        rows = {row.name: row for row in classes}
        lines = [line_of(rows, row) for row in classes]
        for check in (self.no_superclass, self.no_end, self.too_many):
            for row, line, places in zip(classes, lines, self.places):
                place = check(rows, row, line, places)
                if place is not None:
                    raise Wrong(place, "together")
        if not self.kernel.keys() <= rows.keys():
            raise Wrong(CLASS_LIST, "together")

    def no_superclass(self, rows, row, line, places):
        return places.superclass if row.superclass not in rows and row.name != b"Object" else None

    def no_end(self, rows, row, line, places):
        return places.superclass if line[-1].name != b"Object" else None

    def too_many(self, rows, row, line, places):
        kind = next((above.kind for above in line if above.kind != "plain"), "plain")
        count, on_class_side = (sum(len(above.lists[at]) for above in line) for at in (0, 3))
        if count > (0 if kind in ("bytes", "words") else INSTANCE_VARIABLES):
            return places.variables
        return places.side_variables if on_class_side > CLASS_SIDE_VARIABLES else None


def line_of(rows, row):
    """A class and its superclasses, up to one that is none or was met before."""
    line = [row]
    while (row := rows.get(row.superclass)) and row not in line:
        line.append(row)
    return line


def read(data, kernel):
    """The image that the bytes spell; Wrong where they spell none."""
    return Reader(data, kernel).image()


def field_starts(data, kernel):
    """Where fields begin, and which bytes are those of the kernel's classes."""
    reader = Reader(data, kernel)
    reader.image()
    return reader.fields, {at for name, span in reader.spans.items() if name in kernel for at in span}


# ---- writing


def number(value, size):
    return value.to_bytes(size, "big", signed=value < 0)


def text(word):
    return number(len(word), 4) + word


def members(found, spell):
    return number(len(found), 4) + b"".join(map(spell, found))


def place(value):
    return number(value, 8)


def side(word):
    return number(SIDES.index(word), 1)


def written(image):
    """The bytes of an image."""
    parts = [members(image.classes, written_row), members(image.changes, written_member), members(image.versions, written_versions)]
    return HEAD + number(FORMAT, 1) + place(image.count) + b"".join(parts)


def written_row(row):
    lists = b"".join(members(names, text) for names in row.lists)
    front = text(row.name) + text(row.superclass) + number(KIND_WORDS.index(row.kind), 1) + lists + text(row.category) + text(row.comment)
    return front + b"".join(members(methods, written_method) for methods in row.methods)


def written_method(method):
    source = number(method.is_in_log, 1) + place(method.position) + place(method.length)
    return text(method.selector) + text(method.category) + source + written_code(method.code)


def written_code(code):
    numbers = (code.flag, code.arguments, code.primitive, code.temporaries, code.is_large)
    return b"".join(number(part, 1) for part in numbers) + members(code.entries, written_entry) + text(code.bytes)


def written_entry(entry):
    word, *parts = entry
    spellings = {
        "small": lambda value: number(value, 4),
        "character": lambda value: number(value, 1),
        "string": text,
        "symbol": text,
        "array": lambda entries: members(entries, written_entry),
        "number": lambda kind, digits: number(kind, 1) + text(digits),
        "class variable": lambda owner, name: text(owner) + text(name),
        "outer": text,
        "owner": lambda name, of: text(name) + side(of),
        "extension": lambda value: number(value, 4),
    }
    return number(TAGS[word], 1) + (spellings[word](*parts) if parts else b"")


def written_member(member):
    return place(member.place) + number(CHANGE_WORDS.index(member.word), 1) + text(member.name) + side(member.side) + text(member.selector)


def written_versions(versions):
    return text(versions.name) + side(versions.side) + text(versions.selector) + members(versions.places, place)


# ---- sources


class Kernel(NamedTuple):
    """The kernel: its state, the rows of its classes as images have them, the text of its methods, and where each of them stands there."""

    state: State
    rows: dict
    text: bytes
    methods: dict


def row_of(name, row):
    """A class of a state as a row of an image, without methods."""
    superclass = b"" if name == b"Object" else row.superclass
    return Row(name, superclass, row.kind, (*row.lists, row.side_variables), row.category, row.comment, ((), ()))


def kernel_of(state, data):
    """The kernel as a state, and the image of a list that changes nothing, which says where its methods stand."""
    rows = {name: row_of(name, row) for name, row in state.classes.items()}
    methods = {(row.name, side, method.selector): method for row, side, method in methods_of(read(data, rows))}
    return Kernel(state, rows, kernel_text(state, methods), methods)


def methods_of(image):
    return [(row, side, method) for row in image.classes for side, methods in zip(SIDES, row.methods) for method in methods]


def kernel_text(state, methods):
    """The text that has the sources of these methods at their places: a section for each side of a class."""
    text, section = b"", None
    for name, side, selector in sorted(methods, key=lambda key: methods[key].position):
        if section != (name, side):
            text += (b" !\n!" if section else b"!") + spell(Head(name, side, b"kernel").text())
        section = name, side
        text += b"\n" + spell(state.side(name, side)[selector][1])
    return text


def source_at(text, position, length):
    """The source that is spelled there, or None."""
    spelled = text[position : position + length]
    source = spelled.replace(b"!!", b"!")
    is_text = len(spelled) == length and 0 < len(source) <= LONGEST and source[0] not in SEPARATORS
    return source if is_text and spell(source)[:-1] == spelled else None


def shape_of(rows, row, side):
    line = line_of(rows, row)
    own = 0 if side == "instance" else 3
    variables = tuple(word for above in reversed(line) for word in above.lists[own])
    return Shape(variables, tuple((above.name, word) for above in line for word in above.lists[1]), row.name, side)


def sources_of(image, log, kernel):
    """The source of each method of an image by class, side and selector, None where its place has none that becomes its code."""
    rows, found = {row.name: row for row in image.classes}, {}
    for row, side, method in methods_of(image):
        source = source_at(log if method.is_in_log else kernel.text, method.position, method.length)
        agrees = source is not None and compiled(source, shape_of(rows, row, side)) == (method.selector, method.code)
        found[row.name, side, method.selector] = source if agrees else None
    return found


# ---- a start


class Damaged(Exception):
    """What is damaged in a folder, and its numbers."""


class Started(NamedTuple):
    """What a start finds: the image, the sources of its methods, the log, and the changes behind the image."""

    image: Image
    sources: dict
    log: bytes
    later: list

    def count(self):
        return self.image.count + len(self.later)

    def state(self):
        classes = {row.name: Class(row.superclass or b"nil", row.kind, row.lists[:3], row.category, row.comment, row.lists[3]) for row in self.image.classes}
        methods = {}
        for row, side, method in methods_of(self.image):
            methods.setdefault((row.name, side), {})[method.selector] = (method.category, self.sources[row.name, side, method.selector])
        return State(classes, methods)


def block_at(log, at):
    """The change whose block begins at a place of the log, or None."""
    try:
        change = method_at(log, at + 1) if log[at : at + 1] == b"!" else text_at(log, at)
    except Fault:
        return None
    return change if change and log.startswith(change.block(), at) else None


def lines_told(changes):
    return b"".join(change.line() for change in changes)


def versions_told(changes):
    lines = [b"version %d %s\n%s\n" % (number, quoted(change.put[0]), change.put[1]) for number, change in enumerate(changes, 1)]
    return b"".join(reversed(lines))


def text_at(log, at):
    text, _ = spelled_text(log, at) or (b"", at)
    if not 0 < len(text) or text[0] in SEPARATORS:
        return None
    try:
        doit = parse_doit(text)
        change = definition_of(doit) or form_of(doit)
    except Fault:
        change = None
    if change and change.word in ("condense", "snapshot"):
        return None
    return change or Change("doIt", put=text)


def method_at(log, at):
    text, behind = spelled_text(log, at) or (b"", at)
    head = head_of(parse_doit(text))
    source, _ = spelled_text(log, behind + 1) or (b"", at)
    if not head or not source:
        return None
    return Change("method", head.name, head.side, parse_method(source), (head.category, source))


def started(files, kernel, refusal):
    """What a start finds in a folder whose mark names an image, by the bytes of its files. `refusal` says why a state refuses a change."""
    log, image, position, count = marked(files)
    try:
        found = image_of([], kernel) if image is None else read(image, kernel.rows)
    except Wrong as wrong:
        raise Damaged("image", wrong.place) from wrong
    sources = sources_of(found, log, kernel)
    places = [member.place for member in found.changes] + [place for versions in found.versions for place in versions.places]
    if found.count > position or any(place >= position for place in places) or None in sources.values():
        raise Damaged("image", len(image))
    start = Started(found, sources, log, [])
    start.later.extend(later_changes(log, 0 if image is None else position, start.state(), refusal))
    if count not in (None, start.count()):
        raise Damaged("count", count, start.count())
    return start


def marked(files):
    """The parts of the log and the image that count, the image's position, and how many changes the mark counts, if it does."""
    logs, images = [files["log0"], files["log1"]], {0: files["image0"], 1: files["image1"], 255: b""}
    fields = valid_mark(files["mark"])
    if not fields:
        raise Damaged("no mark", max(map(len, logs)))
    _, log, length, image, image_length, position, form, count = fields
    for value, lawful in (log, (0, 1)), (image, images), (form, (0, 2)):
        if value not in lawful:
            raise Damaged("mark", value)
    if length > len(logs[log]):
        raise Damaged("log is short", length, len(logs[log]))
    if image != 255 and image_length > len(images[image]):
        raise Damaged("image is short", image_length, len(images[image]))
    return logs[log][:length], images[image][:image_length] if image != 255 else None, position, count if form == 2 else None


def later_changes(log, at, state, refusal):
    """The changes whose blocks stand from a place on."""
    while at != len(log):
        change = block_at(log, at)
        if not change:
            raise Damaged("block", at)
        refused = refusal(state, change)
        if refused:
            raise Damaged("replay", at, int(refused.split()[0]))
        yield change
        state, at = state.after(change), at + len(change.block())


# ---- the image of a list


def image_of(changes, kernel):
    """The image of a list of changes."""
    state, methods, versions, at, places = kernel.state, dict(kernel.methods), {}, 0, []
    for change in changes:
        places.append(at)
        key = change.place()
        if change.word == "method":
            front = b"!" + spell(Head(change.name, change.side, change.put[0]).text()) + b"\n"
            methods[key] = Method(change.selector, b"", True, at + len(front), len(spell(change.put[1])) - 1, None)
            versions.setdefault(key, []).append(at)
        if change.word == "remove":
            del methods[key]
        if change.word == "remove-class":
            methods = {key: method for key, method in methods.items() if key[0] != change.name}
        state, at = state.after(change), at + len(change.block())
    members = [Member(places[number], changes[number].word, *changes[number].place()) for number in set_numbers(changes)]
    kept = [Versions(*key, tuple(found)) for key, found in versions.items()]
    return Image(len(changes), rows_of(state, methods), tuple(members), tuple(sorted(kept, key=Versions.key)))


def rows_of(state, methods):
    """The rows of a state, whose methods stand at these places."""
    rows = {name: row_of(name, row) for name, row in state.classes.items()}
    return tuple(rows[name]._replace(methods=tuple(side_of(state, methods, rows, name, side) for side in SIDES)) for name in sorted(rows))


def side_of(state, methods, rows, name, side):
    shape, found = shape_of(rows, rows[name], side), []
    for selector, (category, source) in sorted(state.side(name, side).items()):
        found.append(methods[name, side, selector]._replace(category=category, code=compiled(source, shape)[1]))
    return tuple(found)
