"""What a method sends and refers to, by docs/LANGUAGE.md and docs/COMMANDS.md ("Senders and references"), told from its source alone. It
shares nothing with the program, which reads compiled code."""
import functools
import re
from typing import NamedTuple

from language import BINARY, NAME, Parser

# Messages that are compiled to jumps, and with how many blocks.
BRANCHES = {b"ifTrue:", b"ifFalse:", b"ifTrue:ifFalse:", b"ifFalse:ifTrue:", b"and:", b"or:"}
LOOPS = {b"whileTrue:", b"whileFalse:"}
# Outer names that are no classes, and are there.
KNOWN = {b"Smalltalk", b"Transcript"}
SELECTOR = re.compile(b"%s|%s|(?:%s:)+" % (NAME, BINARY, NAME))


def is_selector(word):
    return bool(SELECTOR.fullmatch(word))


def is_arm(expression):
    """Whether it is a block without parameters, without parentheses, and nothing else."""
    return not expression.messages and expression.primary is not None and expression.primary.kind == "block"


def is_inlined(expression):
    """Whether its last message is compiled to jumps, where no cascade follows."""
    if not expression.messages:
        return False
    selector, arguments = expression.messages[-1]
    first, is_only = expression.primary, len(expression.messages) == 1
    if not all(map(is_arm, arguments)) or (is_only and first is not None and first.word == b"super"):
        return False
    return selector in BRANCHES or (selector in LOOPS and is_only and first is not None and first.kind == "block")


class Walk(Parser):
    """A parser that notes the messages that aren't inlined, and the names that are neither reserved nor declared where they stand."""

    def __init__(self, text):
        super().__init__(text)
        self.sent, self.free = [], []

    def note(self, name):
        if not any(name.word in scope for scope in self.scopes):
            self.free.append(name.word)

    def primary(self):
        """A block without parameters is told by its bracket."""
        opening, behind = self.next(), self.tokens[self.at + 1 : self.at + 2]
        single = super().primary()
        if single and single.kind == "name":
            self.note(single)
        is_plain_block = opening.kind == "block" and behind[0].kind != "colon"
        return opening if is_plain_block else single

    def targets(self):
        first = self.at
        assigns = super().targets()
        for name in self.tokens[first : self.at : 2]:
            self.note(name)
        return assigns

    def message(self, most):
        selector, arguments = super().message(most)
        self.sent.append(selector)
        return selector, arguments

    def operand(self, most):
        found = super().operand(most)
        if is_inlined(found) and not self.is_next("again"):
            # The last message of all that were noted.
            self.sent.pop()
        return found


class Links(NamedTuple):
    """The selectors that a source sends, and the names in it that its class may have as variables, or that are outer names."""

    sent: frozenset
    free: frozenset


@functools.cache
def links_of(source):
    """Each text is read once."""
    walk = Walk(source)
    walk.method()
    return Links(frozenset(walk.sent), frozenset(walk.free))


def variables_of(state, name, side):
    """The variables that methods of this class and side see."""
    rows = list(state.line(name))
    own = [row.side_variables if side == "class" else row.lists[0] for row in rows]
    return {word for names in own + [row.lists[1] for row in rows] for word in names}


class Sought(NamedTuple):
    """A method: its class, side and selector, the selectors that it sends, and the outer names to which it refers."""

    name: bytes
    side: str
    selector: bytes
    sent: frozenset
    outer: frozenset


def methods_of(state):
    """All methods by class, side and selector."""
    for name in sorted(state.classes):
        for side in ("instance", "class"):
            methods = state.side(name, side)
            variables = variables_of(state, name, side) if methods else set()
            for selector, (_, source) in sorted(methods.items()):
                links = links_of(source)
                yield Sought(name, side, selector, links.sent, links.free - variables)


def senders(state, selector):
    return [method for method in methods_of(state) if selector in method.sent]


def implementors(state, selector):
    return [method for method in methods_of(state) if selector == method.selector]


def references(state, name):
    return [method for method in methods_of(state) if name in method.outer]


def all_sent(state):
    return {selector for method in methods_of(state) for selector in method.sent}


def all_selectors(state):
    return {method.selector for method in methods_of(state)}


def all_outer(state):
    return {name for method in methods_of(state) for name in method.outer}


def undeclared(state):
    return sorted(all_outer(state) - state.classes.keys() - KNOWN)


def unimplemented(state):
    return sorted(all_sent(state) - all_selectors(state))


def unsent(state):
    return sorted(all_selectors(state) - all_sent(state))
