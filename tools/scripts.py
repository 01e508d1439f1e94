"""Random commands over few names, with replies that the model knows: changes of classes in each form, methods and doIts, texts that are
nearly forms, and each kind of refusal that is told without a compiler."""
import re

from keeper import NOTE, spec, spell
from trials import Command

NAMES = [b"A", b"B", b"C", b"Dd"]
KERNEL = [b"Object", b"Integer"]
SELECTORS = [b"one", b"two", b"take:", b"from:to:", b"%", b"bump"]
CATEGORIES = [b"accessing", b"it's", b"", b"a!b", b"more of it"]
KINDS = [b"subclass:"] * 5 + [b"variableSubclass:", b"variableByteSubclass:", b"variableWordSubclass:"]
ANSWERS = {
    b"3 + 4": b"=> 7\n",
    b"3 + 4 * 2": b"=> 14\n",
    b"'It''s here!'": b"=> 'It''s here!'\n",
    b"$!": b"=> $!\n",
    b'"nothing"': b"=> nil\n",
    b"| a b | a _ 6. b := 7. a * b": b"=> 42\n",
    b"Outer _ 3. Outer": b"=> 3\n",
    b"Outer": b"=> nil\n",
    b"Object class": b"=> Object class\n",
    b"#(1 2 3) size": b"=> 3\n",
    b"Transcript show: 'one'; cr. 5": b"one\n=> 5\n",
    b"Transcript show: 'so far'. nil foo": b"so far\nstopped 2 not understood UndefinedObject foo\n",
    b"self error: 'no more'": b"stopped 1 error no more\n",
    b"7 / 2": b"stopped 1 error primitive failed\n",
    b"3 ifTrue: [4]": b"stopped 3 not boolean\n",
    b"| b | b _ [b value]. b value": b"stopped 5 block active\n",
    b"Array new: 1048575": b"stopped 6 objects full 0\n",
    NOTE: b"=> nil\n",
}
FAULTY = [b"3 + ", b"'abc", b"3 + {4}", b"2r12", b"self _ 3", b"(" * 65 + b"1" + b")" * 65, b"^3. 4", b"a; b", b"#(1 . 2)", b"[:x | x",
          b"A comment: 'x", b"A removeSelector: #", b"A organization classify: #one under:", b"Smalltalk noChanges!"]
FAULTY_METHODS = [b"one ^(2", b"take: ^3", b"take: x x _ 3", b"one <primitive: 0>", b"one | self | ^1", b"3 + 4"]
HEADS = [b"Object foo", b"Object methodsFor: 3", b"A class class methodsFor: 'x'", b"Nobody methodsFor: 'x'", b"3 +",
         b"A methodsFor: 'x'; yourself", b"A comment: 'x'", b"A removeFromSystem", b"Smalltalk noChanges"]
LISTS = [b"x y x", b"self", b"3x", b"x\ty\r\nz"] + [b" ".join(b"v%d" % each for each in range(count)) for count in (64, 65, 256, 257)]
COMMENTS = [b"", b"What it's for!", b"first line\n\tsecond", b"a \"note\"", b"\xc3\xa4", b"it"]
TALES = [("method", "remove", "method"), ("method", "remove class", "define", "method"), ("comment", "remove class", "define", "comment"),
         ("method", "other", "remove other", "method"), ("method", "move", "move", "remove", "method", "move")]
STRAY = [b"! !\n", b" \n\f\t", b"!\n!\n"]
ASKED = re.compile(rb"(\w+)( new)? ([a-z]+|take: 3|from: 3 to: 4|% 3)")
KNOWN_BODY = re.compile(rb".*\^\s*([0-9]+)\s*", re.S)
# A method that counts in a variable, and two messages that show whether they have it in common.
BUMP = b"bump %s _ %s isNil ifTrue: [1] ifFalse: [%s + 1]. ^%s"
BUMP_BODY, BUMPS = re.compile(rb"bump (\w+) _ .*", re.S), re.compile(rb"(\w+) bump\. (\w+) bump")
BUMPED = [b"a", b"b", b"c", b"D", b"E"]
# What stands in blocks that are never run: words that may be variables, classes or outer names, and messages that may be inlined.
WORDS = [b"a", b"b", b"c", b"A", b"B", b"C", b"D", b"Dd", b"Nobody", b"Outer", b"Smalltalk", b"Transcript", b"self", b"super", b"nil"]
TARGETS = [b"a", b"b", b"B", b"D", b"Outer", b"Nobody"]
SENT = [b"one", b"two", b"take:", b"from:to:", b"%", b"bump", b"zork", b"+", b"==", b"value", b"perform:", b"do:with:"]
CONTROLS = [b"ifTrue:", b"ifFalse:", b"ifTrue:ifFalse:", b"ifFalse:ifTrue:", b"and:", b"or:", b"whileTrue:", b"whileFalse:"]
ODD_NAMES = [b"3x", b"self", b"thisContext", b"a:b", b"one:two", b"two words", b"", b":", b"+-", b"===", b"Foo class", b"one ", b"\xc3\xa4"]
NEARLY = re.compile(rb"(?:\(|\^|x _ |\| x \| )?(\w+) (class )?"
                    rb"(comment:|instanceVariableNames:|removeSelector:|organization|removeClassNamed:|removeFromSystem|noChanges|snapshot|condenseChanges).*", re.S)


MADE = re.compile(rb"(Gen[0-9]+) new m9: ([0-9]+)")


def made(name, number, state):
    """What the doIt behind a made class comes to."""
    if not state.method_for(name, "class", b"new"):
        return b"stopped 2 not understood %s class new\n" % name
    return b"=> %d\n" % (11 * number + 9)


def answers(text, state):
    """The reply to a doIt, where it is known: those above, messages to the classes with the names above or to an instance, and what isn't a
    form, but nearly."""
    if text in ANSWERS:
        return ANSWERS[text]
    generated = MADE.fullmatch(text)
    if generated:
        return made(generated[1], int(generated[2]), state)
    bumps, nearly = BUMPS.fullmatch(text), NEARLY.fullmatch(text)
    if bumps:
        return bumped(bumps.groups(), state)
    if nearly:
        return not_understood(state, *nearly.groups())
    asked = ASKED.fullmatch(text)
    if not asked:
        return None
    name, side, selector = asked[1], "instance" if asked[2] else "class", re.sub(rb" [0-9]( |$)", b"", asked[3])
    if name not in state.classes:
        # An outer name is nil.
        name, side, selector = b"UndefinedObject", "instance", b"new" if asked[2] else selector
    found = state.method_for(name, side, selector)
    if not found:
        return b"stopped 2 not understood %s %s\n" % (spec(name, side), selector)
    value = KNOWN_BODY.fullmatch(found[1])
    return b"=> %s\n" % value[1] if value else None


def receiver(name, state):
    """The class and the side that a name's methods are looked up in."""
    outer = {b"Smalltalk": b"SystemDictionary"}
    return (name, "class") if name in state.classes else (outer.get(name, b"UndefinedObject"), "instance")


def not_understood(state, name, is_of_class, selector):
    found, side = receiver(name, state)
    if is_of_class:
        found, side = (b"Metaclass", "instance") if side == "class" else (found, "class")
    return b"stopped 2 not understood %s %s\n" % (spec(found, side), selector)


def bumped(names, state):
    """What two messages `bump` come to: 2 where both count in one variable, else 1."""
    variables = []
    for name in names:
        place = state.place_for(*receiver(name, state), b"bump")
        if not place:
            return b"stopped 2 not understood %s bump\n" % spec(*receiver(name, state))
        variables.append(variable(state, name, *place, BUMP_BODY.fullmatch(state.side(*place)[b"bump"][1])[1]))
    if variables[0] != variables[1]:
        return b"=> 1\n"
    # The second asks a number whether it is nil.
    return b"=> 2\n" if state.method_for(b"SmallInteger", "instance", b"isNil") else b"stopped 2 not understood SmallInteger isNil\n"


def variable(state, name, owner, side, word):
    """Which variable a word means in a method of this class and side, where a class or nil receives the message."""
    for above in state.names_above(owner) if side == "class" else []:
        if word in state.classes[above].side_variables:
            return name, above, word
    for above in state.names_above(owner):
        if word in state.classes[above].lists[1]:
            return above, word
    return word


# ---- texts


def names(chance, most):
    return b" ".join(chance.sample([b"a", b"b", b"c", b"d", b"e"], chance.randint(0, most)))


def definition(chance):
    """Of one of the names; now and then one that is refused, for one reason or for several."""
    name, superclass = chance.choice(NAMES), chance.choice(NAMES + [b"Object"] * 6)
    lists = [names(chance, 2), names(chance, 1).upper(), b""]
    if chance.randrange(10) == 0:
        name = chance.choice([b"Object", b"Smalltalk", b"small", b"take:", b"+"])
    if chance.randrange(10) == 0:
        superclass = b"Nobody"
    if chance.randrange(6) == 0:
        lists[chance.randrange(3)] = chance.choice(LISTS)
    separator = chance.choice([b" ", b"\n\t", b"\r\t"])
    words = [b"instanceVariableNames:", b"classVariableNames:", b"poolDictionaries:", b"category:"]
    texts = [*lists, chance.choice(CATEGORIES)]
    parts = [b"%s '%s'" % (word, text.replace(b"'", b"''")) for word, text in zip(words, texts)]
    return separator.join([b"%s %s #%s" % (superclass, chance.choice(KINDS), name), *parts])


def simple_definition(chance, name, above=None):
    lists = names(chance, 2), names(chance, 2).upper(), chance.choice(CATEGORIES).replace(b"'", b"''")
    above = above or chance.choice([other for other in NAMES if other != name] + [b"Object"] * 3)
    text = b"%s subclass: #%s instanceVariableNames: '%s' classVariableNames: '%s' poolDictionaries: '' category: '%s'"
    return text % (above, name, *lists)


def loose(chance, *words):
    """The words as a text, with separators or a comment between them."""
    joint = chance.choice([b" "] * 4 + [b"\n\t", b"\r", b' "it\'s here" '])
    return joint.join(words) + chance.choice([b""] * 5 + [b".", b"\n", b' "done"'])


def quote(text):
    return b"'%s'" % text.replace(b"'", b"''")


def comment(chance, name):
    return name, b"comment:", quote(chance.choice(COMMENTS))


def side_variables(chance, name):
    words = chance.choice(LISTS) if chance.randrange(8) == 0 else names(chance, 2)
    if chance.randrange(8) == 0:
        words = b" ".join(b"w%d" % each for each in range(chance.choice([30, 33, 62])))
    return name, b"class", b"instanceVariableNames:", quote(words)


def removal(chance, name, selector, side):
    return name, *side, b"removeSelector:", b"#" + selector


def move(chance, name, selector, side):
    return name, *side, b"organization", b"classify:", b"#" + selector, b"under:", quote(chance.choice(CATEGORIES))


def class_removal(chance, name):
    return chance.choice([(b"Smalltalk", b"removeClassNamed:", b"#" + name), (name, b"removeFromSystem")])


def form_words(chance):
    """A form; now and then one that is refused whatever is there."""
    name = chance.choice(NAMES * 6 + [b"Object", b"Integer", b"Nobody", b"Smalltalk", b"Class"])
    selector = chance.choice(SELECTORS * 3 + [b"isNil", b"new", b"zork", b"==", b"do:with:"])
    side = chance.choice([(), (), (b"class",)])
    kind = chance.randrange(12)
    if kind < 2:
        return comment(chance, name)
    if kind < 5:
        return side_variables(chance, name)
    if kind < 10:
        return (removal if kind < 8 else move)(chance, name, selector, side)
    return class_removal(chance, name) if kind == 10 else (b"Smalltalk", chance.choice([b"noChanges", b"snapshot", b"condenseChanges"]))


def form(chance):
    return loose(chance, *form_words(chance))


def nearly(chance):
    """Nearly a form: a doIt that is evaluated."""
    words = form_words(chance)
    text, last = b" ".join(words), words[-1]
    parted = [b"%s (%s)" % (b" ".join(words[:-1]), last), b"%s %s" % (b" ".join(words[:-1]), chance.choice([b"3", b"one", b"$a", b"#(a)"]))]
    rest = b" ".join(words[1:])
    other = [words[0] + b" class " + rest, b"nil " + rest]
    around = [b"(%s)" % text, b"^%s" % text, b"x _ %s" % text, b"| x | %s" % text, text + b"; yourself", text + b". 3", text + b" size"]
    has_argument = words[-2].endswith(b":")
    has_other = words[1] in (b"comment:", b"removeFromSystem", b"noChanges", b"snapshot", b"condenseChanges", b"removeClassNamed:")
    return chance.choice(around + parted * has_argument + other * has_other + [b"A noChanges", b"B snapshot", b"A condenseChanges", b"A removeClassNamed: #B"])


def tale(chance):
    """Changes of one class, and of one method of it most times, with removals between them."""
    name, selector = chance.choice(NAMES), chance.choice(SELECTORS)
    side, other = chance.sample([(), (b"class",)], 2)
    steps = {
        "define": lambda: simple_definition(chance, name),
        "comment": lambda: b" ".join(comment(chance, name)),
        "variables": lambda: b" ".join(side_variables(chance, name)),
        "remove": lambda: b" ".join(removal(chance, name, selector, side)),
        "remove other": lambda: b" ".join(removal(chance, name, selector, other)),
        "move": lambda: b" ".join(move(chance, name, selector, side)),
        "remove class": lambda: b" ".join(class_removal(chance, name)),
        "begin": lambda: b"Smalltalk noChanges",
    }
    methods = {"method": side, "other": other}
    by_chance = chance.choices([*steps, *methods], [3, 3, 1, 3, 1, 3, 2, 1, 7, 2], k=chance.randint(2, 8))
    kinds = ["define", *chance.choice([*TALES, by_chance, by_chance, by_chance])]
    return b"".join(method(chance, name, selector, methods[kind]) if kind in methods else spell(steps[kind]()) + b"\n" for kind in kinds)


def counters(chance):
    """Two classes, the one below the other, and whether they count in one variable."""
    name, below = chance.sample(NAMES, 2)
    variables = b"%s class instanceVariableNames: '%s'" % (chance.choice([name, name, below]), chance.choice([b"a", b"a b", b"b", b"D"]))
    texts = [simple_definition(chance, name, b"Object"), simple_definition(chance, below, name), variables]
    pieces = [spell(text) + b"\n" for text in texts] + [section_of(name, (b"class",), b"it", bump(chance.choice([b"a", b"a", b"D"])))]
    asked = spell(b"%s bump. %s bump" % tuple(chance.choices([name, below], k=2))) + b"\n"
    return b"".join(pieces + [asked] + chance.sample(pieces, 2) + [asked])


def section_of(name, side, category, source):
    """A section of one method."""
    return b"!" + spell(b" ".join((name, *side, b"methodsFor:", quote(category)))) + b"\n" + spell(source) + b" !\n"


def method(chance, name, selector, side):
    return section_of(name, side, chance.choice(CATEGORIES), method_source(chance, selector))


def bump(word):
    return BUMP % (word, word, word, word)


def source(chance):
    if chance.randrange(6) == 0:
        return chance.choice(FAULTY_METHODS)
    return method_source(chance, chance.choice(SELECTORS))


def method_source(chance, selector):
    if selector == b"bump":
        return bump(chance.choice(BUMPED))
    parts = iter([b": x", b": y"])
    pattern = b"% x" if selector == b"%" else re.sub(rb":", lambda _: next(parts) + b" ", selector).strip()
    note = chance.choice([b"", b'"it\'s a note!"', b'"a ""note"""'])
    asides = [aside(chance)] if chance.randrange(2) else []
    return chance.choice([b" ", b"\n\t", b"\r\t"]).join(part for part in (pattern, note, *asides, b"^%d" % chance.randrange(1000)) if part)


def operand(chance, depth):
    kind = chance.randrange(8)
    if depth == 0 or kind < 3:
        return chance.choice(WORDS + [b"3", b"#one", b"#(two #take:)", b"'zork'"])
    if kind < 5:
        return b"[%s]" % b". ".join(expression(chance, depth - 1) for _ in range(chance.randint(0, 2)))
    return b"[:%s | %s]" % (chance.choice([b"a", b"Outer"]), expression(chance, depth - 1)) if kind == 5 else b"(%s)" % expression(chance, depth - 1)


def sending(chance, depth):
    """A message, with what it is sent."""
    selector = chance.choice(SENT + CONTROLS)
    arms = [b"[%s]" % expression(chance, depth - 1) if selector in CONTROLS and depth > 0 and chance.randrange(6) else operand(chance, depth) for _ in range(2)]
    if selector.endswith(b":"):
        return b" ".join(b"%s: %s" % part for part in zip(selector.split(b":")[:-1], arms))
    return selector if selector.isalpha() else selector + b" " + arms[0]


def expression(chance, depth):
    targets = b"".join(word + b" _ " for word in chance.sample(TARGETS, chance.choice([0, 0, 0, 1, 2])))
    messages = [sending(chance, depth) for _ in range(chance.choice([0, 1, 1, 1, 2]))]
    # A message behind one with keywords stands in a cascade.
    return targets + operand(chance, depth) + b"".join(b" " + message for message in messages[:1]) + b"".join(b"; " + message for message in messages[1:])


def aside(chance):
    """A statement that does nothing, and that messages and names stand in."""
    return b"[%s]." % expression(chance, chance.randint(1, 2))


def section(chance):
    name = chance.choice(NAMES * 3 + [b"Object", b"Integer"])
    side = chance.choice([b"", b"", b" class"])
    head = b"%s%s methodsFor: '%s'" % (name, side, chance.choice(CATEGORIES).replace(b"'", b"''"))
    if chance.randrange(10) == 0:
        head = chance.choice(HEADS)
    sources = [source(chance) for _ in range(chance.randint(0, 4))]
    return b"!" + spell(head) + b"\n" + b"\n".join(map(spell, sources)) + b" !\n"


def doit(chance):
    odd = chance.randrange(10)
    if odd == 0:
        return chance.choice(FAULTY)
    if odd < 3:
        return chance.choice(list(ANSWERS))
    if odd < 6:
        return b"%s bump. %s bump" % (chance.choice(NAMES), chance.choice(NAMES))
    message = chance.choice([b"one", b"two", b"take: 3", b"from: 3 to: 4", b"% 3"])
    return b"%s%s %s" % (chance.choice(NAMES), chance.choice([b"", b" new"]), message)


def chunks(chance, count):
    """So many pieces of an input."""
    kinds = [definition, form, nearly, doit, section, tale, counters, lambda chance: chance.choice(STRAY)]
    found = [(kind, kind(chance)) for kind in chance.choices(kinds, [4, 5, 1, 4, 4, 4, 1, 1], k=count)]
    return b"".join(spell(text) + b"\n" if kind in kinds[:4] else text for kind, text in found)


# ---- commands


def query(chance):
    name = chance.choice(NAMES * 2 + [b"Object", b"Integer", b"Nobody", b"self", b"3", b"two words"])
    kind = chance.randrange(12)
    if kind >= 8:
        return seeking(chance)
    if kind < 4:
        return Command((["recover", "classes", "changes", "changes"][kind],))
    if kind == 4:
        return Command(("browse", name))
    word = "source" if kind == 5 else "versions"
    return Command((word, name + chance.choice([b"", b"", b" class"]), chance.choice(SELECTORS * 2 + [b"isNil", b"new"])))


def seeking(chance):
    """A query of methods by what they send, are or refer to, or of the names to which nothing answers."""
    kind = chance.randrange(8)
    if kind < 3:
        return Command((["undeclared", "unimplemented", "unsent"][kind],))
    if kind < 6:
        return Command((chance.choice(["senders", "senders", "implementors"]), chance.choice((SENT + CONTROLS) * 2 + [b"isNil", b"value:"] + ODD_NAMES)))
    return Command(("references", chance.choice(WORDS * 2 + [b"Object", b"String"] + ODD_NAMES)))


def other_set(chance):
    """A few pieces of a change set that somebody else may have made: of kernel classes, which are there in any base, and of others."""
    kinds = {
        "comment": lambda: spell(loose(chance, *comment(chance, chance.choice(KERNEL)))) + b"\n",
        "method": lambda: method(chance, chance.choice(KERNEL), chance.choice(SELECTORS), chance.choice([(), (b"class",)])),
        "definition": lambda: spell(simple_definition(chance, chance.choice(NAMES), b"Object")) + b"\n",
        "passed over": lambda: spell(chance.choice([doit(chance), b"Smalltalk " + chance.choice([b"noChanges", b"snapshot", b"condenseChanges"])])) + b"\n",
        "tale": lambda: tale(chance),
        "anything": lambda: chunks(chance, 1),
    }
    return b"".join(kinds[kind]() for kind in chance.choices([*kinds], [3, 4, 2, 2, 2, 1], k=chance.randint(0, 4)))


def file_in(chance):
    """A long file-in of several groups: many methods of a class below a long category, each of which has it in its block. Of a merge they are
    of a kernel class."""
    name, category = chance.choice(NAMES), b"c" * chance.randint(300, 900)
    word = chance.choice(["run", "merge"])
    first, name = (simple_definition(chance, name) + b"!\n", name) if word == "run" else (b"", b"Object")
    methods = b"".join(b"m%d ^%d!\n" % (number, number) for number in range(chance.randint(150, 300)))
    return Command((word,), first + b"!%s methodsFor: %s!\n%s !\n3 + 4!\n" % (name, quote(category), methods))


def command(chance, size):
    """Any of them; a run of at most so many pieces."""
    kind = chance.randrange(10)
    if kind == 9:
        return Command(("merge",), other_set(chance) + chance.choice([b""] * 8 + [b"3 + 4", b"!A"]))
    if kind < 3:
        return Command(("run",), chunks(chance, chance.randint(0, size)) + chance.choice([b""] * 4 + [b"3 + 4", b"!A"]))
    if kind < 5:
        return Command(("do", chance.choice([b"", b" ", b"\n\t"]) + chance.choice([doit, doit, definition, form, form, nearly])(chance)))
    if kind == 5 and chance.randrange(2) == 0:
        return Command(chance.choice([("snapshot",), ("snapshot",), ("condense",), ("condense",), ("make", chance.choice("123"))]))
    return query(chance)
