"""A plain verifier and compiler of methods, by docs/LANGUAGE.md ("Code that can be run", "Compiling"): whether a code can be run, and which code
a source becomes in a class. They share nothing with the program."""
import functools
import re
from typing import NamedTuple

from language import BINARY, RESERVED, Fault, Parser, string_text
from links import BRANCHES, LOOPS, is_selector

LONGEST_CODE, MOST_TEMPORARIES, LARGE_ROOM, SMALL_ROOM = 1_023, 31, 32, 12
ARITHMETIC = [b"+", b"-", b"<", b">", b"<=", b">=", b"=", b"~=", b"*", b"/", b"\\\\", b"@", b"bitShift:", b"//", b"bitAnd:", b"bitOr:"]
COMMON = [b"at:", b"at:put:", b"size", b"next", b"nextPut:", b"atEnd", b"==", b"class", b"blockCopy:", b"value", b"value:", b"do:", b"new", b"new:", b"x", b"y"]
SPECIAL = {selector: 176 + at for at, selector in enumerate(ARITHMETIC + COMMON)}
SELECTORS = {byte: selector for selector, byte in SPECIAL.items()}
BLOCK_COPY = SPECIAL.pop(b"blockCopy:")
CONSTANTS = {("true",): 113, ("false",): 114, ("nil",): 115, ("small", -1): 116, ("small", 0): 117, ("small", 1): 118, ("small", 2): 119}
RETURNS = {b"self": 120, b"true": 121, b"false": 122, b"nil": 123}
NIL, FALSE, TRUE, DUPLICATE, POP, CONTEXT, RETURN, LEAVE = 115, 114, 113, 136, 135, 137, 124, 125
LITERALS = {"small", "character", "string", "symbol", "array", "true", "false", "nil", "number"}
VARIABLES = {"class variable", "outer"}
LEAST_SMALL, MOST_SMALL = -(2**30), 2**30 - 1


class Code(NamedTuple):
    flag: int
    arguments: int
    primitive: int
    temporaries: int
    is_large: bool
    entries: tuple
    bytes: bytes


def parameters_of(selector):
    return 1 if re.fullmatch(BINARY, selector) else selector.count(b":")


# ---- whether a code can be run


class Instruction(NamedTuple):
    """What an instruction is, its operand, and how many bytes it has."""

    kind: str
    operand: tuple
    width: int


STORAGES = ["receiver", "temporary", "constant", "variable"]
# The instructions of one byte: the first of the range and the last, and what each is, by its place in the range.
RANGES = [
    (0, 15, lambda at: ("push", ("receiver", at))),
    (16, 31, lambda at: ("push", ("temporary", at))),
    (32, 63, lambda at: ("push", ("constant", at))),
    (64, 95, lambda at: ("push", ("variable", at))),
    (96, 103, lambda at: ("pop into", ("receiver", at))),
    (104, 111, lambda at: ("pop into", ("temporary", at))),
    (112, 119, lambda at: ("push fixed", (112 + at,))),
    (120, 123, lambda at: ("return fixed", ())),
    (124, 124, lambda at: ("return", ())),
    (125, 125, lambda at: ("leave", ())),
    (135, 135, lambda at: ("pop", ())),
    (136, 136, lambda at: ("duplicate", ())),
    (137, 137, lambda at: ("push fixed", (137,))),
    (144, 151, lambda at: ("jump", (at + 1,))),
    (152, 159, lambda at: ("jump if", (at + 1,))),
    (176, 207, lambda at: ("send special", (176 + at,))),
    (208, 223, lambda at: ("send", (0, at))),
    (224, 239, lambda at: ("send", (1, at))),
    (240, 255, lambda at: ("send", (2, at))),
]
# Those of two bytes, by their place in the range and the second byte.
PAIRS = [
    (128, 128, lambda at, byte: ("push", (STORAGES[byte >> 6], byte & 63))),
    (129, 129, lambda at, byte: ("store", (STORAGES[byte >> 6], byte & 63))),
    (130, 130, lambda at, byte: ("pop into", (STORAGES[byte >> 6], byte & 63))),
    (131, 131, lambda at, byte: ("send", (byte >> 5, byte & 31))),
    (133, 133, lambda at, byte: ("send super", (byte >> 5, byte & 31))),
    (160, 167, lambda at, byte: ("jump", ((at - 4) * 256 + byte,))),
    (168, 171, lambda at, byte: ("jump if", (at * 256 + byte,))),
    (172, 175, lambda at, byte: ("jump if", (at * 256 + byte,))),
]
TRIPLES = {132: "send", 134: "send super"}


def decoded(code, at):
    """The instruction at a place, or None where the bytes end inside it or its byte is unused."""
    byte, behind = code[at], code[at + 1 : at + 3]
    for first, last, make in RANGES:
        if first <= byte <= last:
            return Instruction(*make(byte - first), 1)
    for first, last, make in PAIRS:
        if first <= byte <= last and behind:
            return Instruction(*make(byte - first, behind[0]), 2)
    return Instruction(TRIPLES[byte], tuple(behind), 3) if byte in TRIPLES and len(behind) == 2 else None


class Unverified(Exception):
    pass


def demand(is_so):
    if not is_so:
        raise Unverified


@functools.cache
def is_verified(code):
    try:
        Verifier(code).verify()
    except Unverified:
        return False
    return True


class Verifier:
    """Follows all paths of a code. A place is reached on the stack of the method or of a block, with so many values."""

    def __init__(self, code):
        self.code, self.reached, self.waiting = code, {}, []
        # Where jumps lead, and the places inside the beginnings of blocks.
        self.landed, self.inside = set(), set()
        self.starts, at = {}, 0
        while at < len(code.bytes) and (found := decoded(code.bytes, at)):
            self.starts[at] = found
            at += found.width

    def verify(self):
        demand(self.fits())
        demand(len(self.code.bytes) <= LONGEST_CODE)
        self.go(0, False, 0)
        while self.waiting:
            self.follow(self.waiting.pop())
        demand(not self.inside & self.landed)

    def fits(self):
        """Whether the numbers and the last entries fit each other."""
        code, words = self.code, [entry[0] for entry in self.code.entries]
        if code.temporaries > MOST_TEMPORARIES or code.arguments > code.temporaries:
            return False
        if code.flag != 7:
            owners = words[-1:] == ["owner"]
            return code.flag == code.arguments <= 4 and code.primitive == 0 and not {"owner", "extension"} & set(words[:-1] if owners else words)
        is_needed = code.arguments > 4 or code.primitive > 0
        ends = words[-2:] == ["extension", "owner"] and not {"owner", "extension"} & set(words[:-2])
        return is_needed and ends and code.entries[-2][1] == 256 * code.arguments + code.primitive

    def go(self, at, is_block, depth):
        """A path comes to a place."""
        room = (LARGE_ROOM if self.code.is_large else SMALL_ROOM) - (0 if is_block else self.code.temporaries)
        demand(at in self.starts and 0 <= depth <= room)
        if at in self.reached:
            demand(self.reached[at] == (is_block, depth))
        else:
            self.reached[at] = is_block, depth
            self.waiting.append(at)

    def jump(self, at, is_block, depth):
        self.landed.add(at)
        self.go(at, is_block, depth)

    def follow(self, at):
        (is_block, depth), found = self.reached[at], self.starts[at]
        kind, operand, after = found.kind, found.operand, at + found.width
        takes, gives = self.effect(found, is_block)
        demand(depth >= takes)
        depth += gives - takes
        if kind in ("return fixed", "return", "leave"):
            return
        if kind == "jump":
            return self.jump(after + operand[0], is_block, depth)
        if kind == "jump if":
            self.jump(after + operand[0], is_block, depth)
        if found == Instruction("send special", (BLOCK_COPY,), 1):
            self.block(at, after, depth)
        self.go(after, is_block, depth)

    def effect(self, found, is_block):
        """How many values an instruction takes from the stack, and how many it gives, where its operands are lawful."""
        kind, operand = found.kind, found.operand
        if kind in ("push", "store", "pop into"):
            demand(self.is_storage(*operand) and (kind == "push" or operand[0] != "constant"))
            return {"push": (0, 1), "store": (1, 1), "pop into": (1, 0)}[kind]
        if kind == "send special":
            return 1 + parameters_of(SELECTORS[operand[0]]), 1
        if kind in ("send", "send super"):
            arguments, at = operand
            entry = self.entry(at)
            demand(entry[0] == "symbol" and is_selector(entry[1]) and parameters_of(entry[1]) == arguments)
            demand(kind == "send" or self.code.entries[-1][0] == "owner")
            return 1 + arguments, 1
        demand(kind != "leave" or is_block)
        return {"push fixed": (0, 1), "return fixed": (0, 0), "return": (1, 0), "leave": (1, 0), "pop": (1, 0), "duplicate": (1, 2),
                "jump": (0, 0), "jump if": (1, 0)}[kind]

    def entry(self, at):
        demand(at < len(self.code.entries))
        return self.code.entries[at]

    def is_storage(self, storage, at):
        if storage == "receiver":
            return True
        if storage == "temporary":
            return at < self.code.temporaries
        return self.entry(at)[0] in (LITERALS if storage == "constant" else VARIABLES)

    def block(self, at, after, depth):
        """A block's beginning: what stands before 200 and behind it."""
        starts = sorted(self.starts)
        number = starts.index(at)
        demand(number >= 2 and after in self.starts)
        context, push, jump = starts[number - 2], starts[number - 1], self.starts[after]
        demand(self.starts[context].operand == (CONTEXT,))
        count = self.count(self.starts[push])
        demand(jump.kind == "jump" and jump.width == 2 and jump.operand[0] >= 0)
        self.inside |= {push, at, after}
        self.go(after + 2, True, count)

    def count(self, push):
        """The number of parameters of a block, which is pushed."""
        if push.kind == "push fixed":
            entry = next((entry for entry, byte in CONSTANTS.items() if byte == push.operand[0]), ("",))
        else:
            demand(push.kind == "push" and push.operand[0] == "constant")
            entry = self.entry(push.operand[1])
        demand(entry[0] == "small" and 0 <= entry[1] <= 31)
        return entry[1]


# ---- trees


class Name(NamedTuple):
    """A name, and its number where it is declared."""

    word: bytes
    number: object


class Constant(NamedTuple):
    entry: tuple


class Paren(NamedTuple):
    inner: object


class Block(NamedTuple):
    """A block, with the numbers of its parameters. A body is a list of statements, each with whether it returns."""

    parameters: tuple
    body: tuple


class Send(NamedTuple):
    receiver: object
    selector: bytes
    arguments: tuple


class Cascade(NamedTuple):
    receiver: object
    messages: tuple


class Assign(NamedTuple):
    targets: tuple
    value: object


class Tree(NamedTuple):
    selector: bytes
    arguments: int
    primitive: int
    temporaries: int
    body: tuple


def number_entry(word, sign=b""):
    digits, _, power = word.partition(b"e")
    radix, _, digits = digits.rpartition(b"r")
    if b"." in digits or power.startswith(b"-"):
        return "number", 2, sign + word
    base = int(radix or b"10")
    # Beyond a power of a hundred each number but 0 is a large one.
    value = int(digits, base) * base ** min(int(power or b"0"), 100)
    value = -value if sign else value
    if LEAST_SMALL <= value <= MOST_SMALL:
        return "small", value
    return "number", int(value < 0), sign + word


class TreeParser(Parser):
    """A parser that makes a tree, in which parameters, temporaries and parameters of blocks have numbers."""

    def __init__(self, text):
        super().__init__(text)
        self.numbers, self.count, self.primitive_number = [], 0, 0

    def name(self, word):
        return Name(word, next((scope[word] for scope in reversed(self.numbers) if word in scope), None))

    def numbered(self, words):
        numbers = range(self.count, self.count + len(words))
        self.count += len(words)
        self.numbers.append(dict(zip(words, numbers)))
        return tuple(numbers)

    def primary(self):
        token = self.next()
        if token.kind == "name":
            return self.name(self.take("name").word)
        if token.kind in ("number", "character", "string", "symbol", "array") or self.is_minus_next():
            return Constant(self.literal())
        if token.kind == "block":
            return self.block()
        self.open("open")
        inner = self.expression()
        self.close("close")
        return Paren(inner)

    def literal(self):
        if self.is_next("array"):
            return self.array("array")
        if self.is_minus_next():
            self.at += 2
            return number_entry(self.tokens[self.at - 1].word, b"-")
        token = self.take(self.next().kind)
        if token.kind == "number":
            return number_entry(token.word)
        if token.kind == "character":
            return "character", token.word[1]
        return (token.kind, string_text(token)) if token.kind == "string" else (token.kind, token.word[1:])

    def array(self, opening):
        self.open(opening)
        entries = []
        while not self.is_next("close"):
            entries.append(self.element())
        self.close("close")
        return "array", tuple(entries)

    def element(self):
        token = self.next()
        if token.kind in ("array", "open"):
            return self.array(token.kind)
        if token.kind in ("number", "character", "string", "symbol") or self.is_minus_next():
            return self.literal()
        if token.kind == "keyword":
            return "symbol", self.keywords()
        if token.kind not in ("name", "binary"):
            self.fail()
        word = self.take(token.kind).word
        return (word.decode(),) if word in (b"true", b"false", b"nil") else ("symbol", word)

    def keywords(self):
        """A run of directly joined keywords."""
        run = self.take("keyword")
        while self.is_next("keyword") and self.next().start == run.end:
            more = self.take("keyword")
            run = run._replace(word=run.word + more.word, end=more.end)
        return run.word

    def block(self):
        self.open("block")
        names = []
        while self.taken("colon"):
            names.append(self.declared())
        numbers, body = self.numbered(names), ()
        self.scopes.append(dict.fromkeys(names, True))
        if not names or self.taken("binary", b"|"):
            body = tuple(self.body("end"))
        elif not self.is_next("end"):
            self.fail()
        self.scopes.pop()
        self.numbers.pop()
        self.close("end")
        return Block(numbers, body)

    def operand(self, most):
        found = self.primary()
        for selector, arguments in self.messages(most):
            found = Send(found, selector, tuple(arguments))
        return found

    def expression(self):
        first = self.at
        self.targets()
        targets = tuple(self.name(token.word) for token in self.tokens[first : self.at : 2])
        found = self.operand(2)
        if isinstance(found, Send) and self.is_next("again"):
            messages = [found[1:]]
            while self.taken("again"):
                selector, arguments = self.message(2)
                messages.append((selector, tuple(arguments)))
            found = Cascade(found.receiver, tuple(messages))
        return Assign(targets, found) if targets else found

    def primitive(self):
        found = super().primitive()
        if found:
            self.primitive_number = number_entry(self.tokens[self.at - 2].word)[1]
        return found

    def method(self):
        selector, parameters = self.pattern()
        has_primitive = self.primitive()
        temporaries = self.temporaries()
        if not has_primitive:
            self.primitive()
        self.scopes.append({**dict.fromkeys(parameters, False), **dict.fromkeys(temporaries, True)})
        self.numbered([*parameters, *temporaries])
        body = tuple(self.body(""))
        return Tree(selector, len(parameters), self.primitive_number, self.count, body)


# ---- compiling


class Shape(NamedTuple):
    """What a method sees: the instance variables from the topmost superclass down, the class variables with their classes, the nearest
    first, and its class and side."""

    variables: tuple
    class_variables: tuple
    name: bytes
    side: str


def is_super(node):
    return isinstance(node, Name) and node.word == b"super"


def is_arm(node):
    return isinstance(node, Block) and not node.parameters


def is_control(node):
    """Whether it is a message that becomes jumps."""
    if not isinstance(node, Send) or not all(map(is_arm, node.arguments)) or is_super(node.receiver):
        return False
    return node.selector in BRANCHES or (node.selector in LOOPS and is_arm(node.receiver))


def wide_jump(distance):
    return bytes([160 + 4 + (distance >> 8), distance & 255])


def jump(distance):
    return bytes([143 + distance]) if 1 <= distance <= 8 else wide_jump(distance)


def jump_unless(wanted, distance):
    """Over so many bytes where a condition isn't as wanted."""
    if not wanted:
        return bytes([168 + (distance >> 8), distance & 255])
    return bytes([151 + distance]) if 1 <= distance <= 8 else bytes([172 + (distance >> 8), distance & 255])


class Compiler:
    """Makes the code of a tree. V leaves a value, E leaves none."""

    def __init__(self, shape):
        self.shape, self.entries, self.has_super = shape, [], False

    def code(self, tree):
        body = self.method_body(tree.body)
        is_long = tree.arguments > 4 or tree.primitive > 0
        entries = self.entries + [("extension", 256 * tree.arguments + tree.primitive)] * is_long
        entries += [("owner", self.shape.name, self.shape.side)] * (is_long or self.has_super)
        return Code(7 if is_long else tree.arguments, tree.arguments, tree.primitive, tree.temporaries, measure(tree) > SMALL_ROOM, tuple(entries), body)

    # -- the frame

    def index(self, entry):
        if entry not in self.entries:
            self.entries.append(entry)
        return self.entries.index(entry)

    def storage(self, name):
        """Where the value of a name is."""
        if name.number is not None:
            return "temporary", name.number
        if name.word in self.shape.variables:
            return "receiver", len(self.shape.variables) - 1 - self.shape.variables[::-1].index(name.word)
        owner = next((owner for owner, word in self.shape.class_variables if word == name.word), None)
        return "variable", self.index(("class variable", owner, name.word) if owner else ("outer", name.word))

    def pushed(self, storage, at):
        first, count = {"receiver": (0, 16), "temporary": (16, 16), "constant": (32, 32), "variable": (64, 32)}[storage]
        return bytes([first + at]) if at < count else self.wide(128, storage, at)

    def wide(self, byte, storage, at):
        return bytes([byte, STORAGES.index(storage) * 64 + at])

    def popped(self, storage, at):
        first = {"receiver": 96, "temporary": 104}.get(storage)
        return bytes([first + at]) if first and at < 8 else self.wide(130, storage, at)

    # -- expressions

    def V(self, node):
        if is_control(node):
            return self.control(node, True)
        ways = {Name: self.name, Constant: self.constant, Paren: lambda paren: self.V(paren.inner), Block: self.block, Send: self.send,
                Cascade: self.cascade, Assign: self.assign}
        return ways[type(node)](node)

    def E(self, node):
        if isinstance(node, Assign):
            value = self.V(node.value)
            stored = b"".join(self.wide(129, *self.storage(name)) for name in reversed(node.targets[1:]))
            return value + stored + self.popped(*self.storage(node.targets[0]))
        if is_control(node) and node.selector not in (b"and:", b"or:"):
            return self.control(node, False)
        return self.V(node) + bytes([POP])

    def name(self, name):
        if name.word in RESERVED:
            fixed = {b"self": 112, b"super": 112, b"thisContext": CONTEXT}
            return bytes([fixed[name.word] if name.word in fixed else CONSTANTS[(name.word.decode(),)]])
        return self.pushed(*self.storage(name))

    def constant(self, constant):
        if constant.entry in CONSTANTS:
            return bytes([CONSTANTS[constant.entry]])
        return self.pushed("constant", self.index(constant.entry))

    def assign(self, node):
        value = self.V(node.value)
        return value + b"".join(self.wide(129, *self.storage(name)) for name in reversed(node.targets))

    def send(self, node):
        return self.V(node.receiver) + self.message(node.selector, node.arguments, is_super(node.receiver))

    def message(self, selector, arguments, to_super):
        pushes, count = b"".join(map(self.V, arguments)), len(arguments)
        self.has_super |= to_super
        if selector in SPECIAL and not to_super:
            return pushes + bytes([SPECIAL[selector]])
        at = self.index(("symbol", selector))
        if not to_super and at < 16 and count <= 2:
            return pushes + bytes([208 + 16 * count + at])
        if at < 32 and count <= 7:
            return pushes + bytes([133 if to_super else 131, 32 * count + at])
        return pushes + bytes([134 if to_super else 132, count, at])

    def cascade(self, node):
        code, to_super = self.V(node.receiver), is_super(node.receiver)
        for message in node.messages[:-1]:
            code += bytes([DUPLICATE]) + self.message(*message, to_super) + bytes([POP])
        return code + self.message(*node.messages[-1], to_super)

    def block(self, node):
        push = self.constant(Constant(("small", len(node.parameters))))
        body = b"".join(self.popped("temporary", number) for number in reversed(node.parameters)) + self.arm(node, True)
        if not ends_with_return(node.body):
            body += bytes([LEAVE])
        return bytes([CONTEXT]) + push + bytes([BLOCK_COPY]) + wide_jump(len(body)) + body

    # -- control

    def control(self, node, wants):
        if node.selector in LOOPS:
            return self.loop(node, wants)
        condition = self.V(node.receiver)
        wanted = node.selector.startswith((b"ifTrue:", b"and:"))
        first = self.arm(node.arguments[0], wants)
        if not wants and len(node.arguments) == 1:
            return condition + jump_unless(wanted, len(first)) + first
        second = self.arm(node.arguments[1], wants) if len(node.arguments) == 2 else bytes([{b"and:": FALSE, b"or:": TRUE}.get(node.selector, NIL)])
        first += jump(len(second))
        return condition + jump_unless(wanted, len(first)) + first + second

    def loop(self, node, wants):
        condition, body = self.arm(node.receiver, True), self.arm(node.arguments[0], False)
        front = condition + jump_unless(node.selector == b"whileTrue:", len(body) + 2) + body
        return front + wide_jump(-len(front) - 2) + (bytes([NIL]) if wants else b"")

    def arm(self, block, wants):
        """A body whose value is wanted or isn't."""
        if not block.body:
            return bytes([NIL]) if wants else b""
        returns, last = block.body[-1]
        front = b"".join(self.E(node) for _, node in block.body[:-1])
        return front + (self.returned(last) if returns else self.V(last) if wants else self.E(last))

    def method_body(self, body):
        code = self.arm(Block((), body), False)
        return code if ends_with_return(body) else code + bytes([RETURNS[b"self"]])

    def returned(self, node):
        return bytes([RETURNS[node.word]]) if isinstance(node, Name) and node.word in RETURNS else self.V(node) + bytes([RETURN])


def ends_with_return(body):
    return bool(body) and body[-1][0]


# ---- the stack


def measure(tree):
    """What a method needs of the stack, with its temporaries, or one of its real blocks."""
    blocks = []
    home = body_need(tree.body, blocks)
    return max([tree.temporaries + home, *blocks])


def body_need(body, blocks):
    return max((need(node, blocks) for _, node in body), default=0)


def need(node, blocks):
    """Notes what each real block in it needs on its own stack, too."""
    if is_control(node):
        loop = [node.receiver] if node.selector in LOOPS else []
        parts = [body_need(arm.body, blocks) for arm in (*loop, *node.arguments)]
        return max(1, *parts, 0 if loop else need(node.receiver, blocks))
    if isinstance(node, Block):
        blocks.append(max(body_need(node.body, blocks), len(node.parameters)))
        return 2
    if isinstance(node, Send):
        return max(need(node.receiver, blocks), arguments_need(node.arguments, blocks))
    if isinstance(node, Cascade):
        parts = [max(1, arguments_need(arguments, blocks)) + 1 for _, arguments in node.messages[:-1]]
        return max(need(node.receiver, blocks), *parts, arguments_need(node.messages[-1][1], blocks))
    if isinstance(node, (Paren, Assign)):
        return need(node.inner if isinstance(node, Paren) else node.value, blocks)
    return 1


def arguments_need(arguments, blocks):
    return max((at + need(argument, blocks) for at, argument in enumerate(arguments, 1)), default=0)


@functools.cache
def compiled(source, shape):
    """The selector of a source and its code in a class; None where it is no method."""
    try:
        tree = TreeParser(source).method()
    except Fault:
        return None
    return tree.selector, Compiler(shape).code(tree)
