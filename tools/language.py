"""The syntax of docs/LANGUAGE.md, as plainly as may be, and no measures: the tokens of a text, and the tree of a doIt or a method, so far
as changes of classes and heads of sections are told by it; or the first fault."""
import re
import sys
from typing import NamedTuple

# A text may hold numbers of any length.
sys.set_int_max_str_digits(0)
SEPARATORS = b" \t\n\f\r"
RESERVED = {b"self", b"super", b"true", b"false", b"nil", b"thisContext"}
DEEPEST = 64
NAME = rb"[A-Za-z][A-Za-z0-9]*"
BINARY = rb"[-+/\\*~<>=@%|&?,!][+/\\*~<>=@%|&?,!]?"
EXPONENT = rb"(?:e-?[0-9]+)?"
MARKS = {b"(": "open", b")": "close", b"[": "block", b"]": "end", b"^": "return", b";": "again", b".": "period", b":": "colon"}
SPELLINGS = [
    ("keyword", re.compile(NAME + rb":(?!=)")),
    ("name", re.compile(NAME)),
    ("number", re.compile(rb"([0-9]+)r([0-9A-Z]+(?:\.[0-9A-Z]+)?)" + EXPONENT)),
    ("number", re.compile(rb"[0-9]+(?:\.[0-9]+)?" + EXPONENT)),
    ("assign", re.compile(rb"_|:=")),
    ("character", re.compile(rb"\$.", re.S)),
    ("symbol", re.compile(rb"#(?:(?:%s:(?!=))+|%s|%s)" % (NAME, NAME, BINARY))),
    ("array", re.compile(rb"#\(")),
    ("mark", re.compile(rb"[()\[\]^;.:]")),
    ("binary", re.compile(BINARY)),
]


class Fault(Exception):
    """The first fault of a text: its kind and its place."""

    def __init__(self, kind, place):
        super().__init__(kind, place)
        self.kind, self.place = kind, place


class Token(NamedTuple):
    kind: str
    word: bytes
    start: int
    end: int


class Expression(NamedTuple):
    """What it begins with, if that is a single token, and its messages: selectors with their arguments. Whether it is nothing else."""

    primary: Token | None
    messages: list
    is_plain: bool


class DoIt(NamedTuple):
    temporaries: list
    statements: list


# ---- tokens


def quoted_end(text, start):
    """Where a string or comment ends that begins here, or None."""
    quote, at = text[start : start + 1], start + 1
    while (at := text.find(quote, at)) >= 0:
        if text[at + 1 : at + 2] != quote:
            return at + 1
        at += 2
    return None


def is_bad_number(found):
    """Whether the radix or a digit is wrong."""
    if found.re.groups == 0:
        return False
    radix, digits = int(found[1]), found[2].replace(b".", b"")
    return not 2 <= radix <= 36 or any(int(chr(digit), 36) >= radix for digit in digits)


def token_at(text, at):
    """The longest token that begins here. Strings aside."""
    if text[at] == ord("$") and at + 1 == len(text):
        raise Fault("unended-token", at)
    for kind, spelling in SPELLINGS:
        found = spelling.match(text, at)
        if found:
            if kind == "number" and is_bad_number(found):
                raise Fault("bad-number", at)
            return Token(MARKS.get(found[0], kind), found[0], at, found.end())
    raise Fault("bad-byte", at)


def tokens_of(text):
    at, tokens = 0, []
    while at < len(text):
        if text[at] in SEPARATORS:
            at += 1
        elif text[at] in b"'\"":
            end = quoted_end(text, at)
            if end is None:
                raise Fault("unended-token", at)
            if text[at] == ord("'"):
                tokens.append(Token("string", text[at:end], at, end))
            at = end
        else:
            tokens.append(token_at(text, at))
            at = tokens[-1].end
    return tokens


def string_text(token):
    return token.word[1:-1].replace(b"''", b"'")


def whole_value(word):
    """The value of a whole number up to 255, or None."""
    digits, _, power = word.partition(b"e")
    radix, _, digits = digits.rpartition(b"r")
    if b"." in digits or power.startswith(b"-"):
        return None
    base = int(radix or b"10")
    value = int(digits, base)
    exponent = int(power or b"0")
    value = value * base ** min(exponent, 9)
    return value if value <= 255 else None


def is_name(word):
    return bool(re.fullmatch(NAME, word)) and word not in RESERVED


# ---- the grammar


class Parser:
    """Reads a text by descent. No token is taken with which no lawful text goes on."""

    def __init__(self, text):
        self.tokens, self.length = tokens_of(text), len(text)
        self.at, self.level = 0, 0
        # For each scope, the innermost last, whether each of its names may be assigned.
        self.scopes = [dict.fromkeys(RESERVED, False)]

    def next(self):
        return self.tokens[self.at] if self.at < len(self.tokens) else Token("", b"", self.length, self.length)

    def fail(self):
        raise Fault("unexpected", self.next().start)

    def is_next(self, kind, word=None):
        token = self.next()
        return token.kind == kind and word in (None, token.word)

    def take(self, kind, word=None):
        if not self.is_next(kind, word):
            self.fail()
        self.at += 1
        return self.tokens[self.at - 1]

    def taken(self, kind, word=None):
        return self.take(kind, word) if self.is_next(kind, word) else None

    def open(self, kind):
        if self.is_next(kind) and self.level == DEEPEST:
            raise Fault("nested", self.next().start)
        self.level += 1
        return self.take(kind)

    def close(self, kind):
        self.take(kind)
        self.level -= 1

    def declared(self):
        if self.next().word in RESERVED:
            self.fail()
        return self.take("name").word

    def is_minus_next(self):
        """Whether a minus is next that stands directly before a number."""
        token, behind = self.next(), self.tokens[self.at + 1 : self.at + 2]
        is_minus = token.kind == "binary" and token.word == b"-"
        return is_minus and bool(behind) and behind[0].kind == "number" and behind[0].start == token.end

    # -- literals

    def array(self, opening):
        self.open(opening)
        while not self.is_next("close"):
            if self.is_next("array") or self.is_next("open"):
                self.array(self.next().kind)
            elif self.is_minus_next():
                self.at += 2
            elif self.next().kind in ("number", "character", "string", "symbol", "name", "binary", "keyword"):
                self.at += 1
            else:
                self.fail()
        self.close("close")

    # -- expressions

    def primary(self):
        """The token, where it is a single one."""
        kind = self.next().kind
        if kind in ("name", "number", "character", "string", "symbol"):
            return self.take(kind)
        if self.is_minus_next():
            self.at += 2
        elif kind == "array":
            self.array("array")
        elif kind == "block":
            self.block()
        elif kind == "open":
            self.open("open")
            self.expression()
            self.close("close")
        else:
            self.fail()
        return None

    def block(self):
        self.open("block")
        names = {}
        while self.taken("colon"):
            names[self.declared()] = True
        self.scopes.append(names)
        if not names or self.taken("binary", b"|"):
            self.body("end")
        elif not self.is_next("end"):
            self.fail()
        self.scopes.pop()
        self.close("end")

    def message(self, most):
        """A message of a kind up to this: 0 unary, 1 binary, 2 keywords."""
        if self.is_next("name"):
            return self.take("name").word, []
        if most >= 1 and self.is_next("binary"):
            return self.take("binary").word, [self.operand(0)]
        if most < 2 or not self.is_next("keyword"):
            self.fail()
        selector, arguments = b"", []
        while word := self.taken("keyword"):
            selector += word.word
            arguments.append(self.operand(1))
        return selector, arguments

    def messages(self, most):
        found, least = [], 0
        while least < 3:
            kind = {"name": 0, "binary": 1, "keyword": 2}.get(self.next().kind, 3)
            if not least <= kind <= most:
                break
            found.append(self.message(most))
            least = 3 if kind == 2 else kind
        return found

    def operand(self, most):
        return Expression(self.primary(), self.messages(most), True)

    def targets(self):
        """Takes names with signs of assignment behind them; says whether there was one."""
        first = self.at
        while self.is_next("name") and self.tokens[self.at + 1 : self.at + 2] and self.tokens[self.at + 1].kind == "assign":
            name = self.take("name")
            scope = next((scope for scope in reversed(self.scopes) if name.word in scope), {name.word: True})
            if not scope[name.word]:
                raise Fault("not-assignable", name.start)
            self.take("assign")
        return self.at > first

    def expression(self):
        assigns = self.targets()
        found = self.operand(2)
        cascades = False
        while found.messages and self.taken("again"):
            cascades = True
            self.message(2)
        return found._replace(is_plain=not assigns and not cascades)

    def body(self, end):
        """The statements up to this kind of token, each with whether it returns."""
        statements = []
        while not self.is_next(end):
            returns = self.taken("return") is not None
            statements.append((returns, self.expression()))
            if not self.taken("period") or returns:
                break
        if not self.is_next(end):
            self.fail()
        return statements

    # -- whole texts

    def temporaries(self):
        names = []
        if self.taken("binary", b"|"):
            while not self.taken("binary", b"|"):
                names.append(self.declared())
        return names

    def primitive(self):
        if not self.taken("binary", b"<"):
            return False
        self.take("keyword", b"primitive:")
        if not self.is_next("number") or not whole_value(self.next().word):
            self.fail()
        self.take("number")
        self.take("binary", b">")
        return True

    def pattern(self):
        """The selector and the parameters."""
        if self.is_next("name"):
            return self.take("name").word, []
        if self.is_next("binary"):
            return self.take("binary").word, [self.declared()]
        selector, parameters = self.take("keyword").word, [self.declared()]
        while word := self.taken("keyword"):
            selector += word.word
            parameters.append(self.declared())
        return selector, parameters

    def method(self):
        selector, parameters = self.pattern()
        has_primitive = self.primitive()
        temporaries = self.temporaries()
        if not has_primitive:
            self.primitive()
        self.scopes.append({**dict.fromkeys(parameters, False), **dict.fromkeys(temporaries, True)})
        self.body("")
        return selector

    def doit(self):
        temporaries = self.temporaries()
        self.scopes.append(dict.fromkeys(temporaries, True))
        return DoIt(temporaries, self.body(""))


def parse_doit(text):
    return Parser(text).doit()


def parse_method(text):
    """The method's selector."""
    return Parser(text).method()


# ---- forms


def sole_messages(doit):
    """The name and the messages, where the doIt sends messages to a name that isn't reserved and does nothing else."""
    if doit.temporaries or len(doit.statements) != 1:
        return None
    returns, sent = doit.statements[0]
    if returns or not sent.is_plain or not sent.primary or sent.primary.kind != "name" or sent.primary.word in RESERVED:
        return None
    return sent.primary.word, sent.messages


def literals(arguments, kinds):
    """The arguments as texts, where they are literals of these kinds and nothing else."""
    if [argument.primary.kind if argument.primary and not argument.messages else None for argument in arguments] != kinds:
        return None
    return [argument.primary.word[1:] if kind == "symbol" else string_text(argument.primary) for argument, kind in zip(arguments, kinds)]
