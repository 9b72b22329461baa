"""Templates of protocols (docs/TEMPLATES.md): their words, and their trees by recursive descent, in one pass over the text.

What a tree means is said by expansion.py. Every part keeps its place, a line and a column in bytes.
"""
import collections
import re

RESERVED = frozenset("protocol language cell array channel stack lossy init rule bad any empty at pair ring two set send recv pop push spawn exit lose "
                     "when all some left right others in map let for if same".split())
# A number is from -MOST to MOST, and blocks and parentheses stand in each other so deep at most.
MOST = 10**9
DEPTH = 32
# Bytes of a template, as of a protocol.
BYTES = 1 << 20

TOKEN = re.compile(r"[ \t\r\n]+|#[^\n]*|(?P<word>[A-Za-z0-9_]+)|(?P<sign>->|\.\.|[=!<>]=|[{}():;*+\-%<>=])|(?P<bad>.)", re.S)
COMPARISONS = ("==", "!=", "<", "<=", ">", ">=")

# `glued` says that the token before it ends where it begins.
Token = collections.namedtuple("Token", "kind text place glued")
Place = collections.namedtuple("Place", "line column")

# Expressions: `first` and then the terms with the signs before them, from the left.
Number = collections.namedtuple("Number", "place value")
Variable = collections.namedtuple("Variable", "place name")
Chain = collections.namedtuple("Chain", "place first rest")
# A name: its pieces are texts and the expressions of its holes.
Name = collections.namedtuple("Name", "place pieces")

# What stands around the items of any list. The source of a loop is a list's variable, a Set, or a Range.
For = collections.namedtuple("For", "place name source body")
If = collections.namedtuple("If", "place left sign right body")
Let = collections.namedtuple("Let", "place name value")
Range = collections.namedtuple("Range", "place first end")

# The items of a template and of its parts.
Section = collections.namedtuple("Section", "place kind name letters")
Row = collections.namedtuple("Row", "place word parts")
Rule = collections.namedtuple("Rule", "place name steps")
Part = collections.namedtuple("Part", "place section atoms")
Atom = collections.namedtuple("Atom", "place base repeat")
Step = collections.namedtuple("Step", "place section move")
# A move: its word, the letters on its left, those on its right (none where it has no arrow), its guards, its table, and what it pushes.
Move = collections.namedtuple("Move", "place word lefts rights guards table pushed")
Guard = collections.namedtuple("Guard", "place quantifier region names")
Entry = collections.namedtuple("Entry", "place left right")
Set = collections.namedtuple("Set", "place names")
Any = collections.namedtuple("Any", "place")
Same = collections.namedtuple("Same", "place")

Template = collections.namedtuple("Template", "place lets name language items")


class Fault(Exception):
    """What is wrong with a template, and where."""

    def __init__(self, place, text):
        super().__init__(f"line {place.line} column {place.column}: {text}")
        self.place = place


def tokens_of(text):
    """The tokens of a text of bytes, decoded byte by byte, with one for its end."""
    found, line, begin, end = [], 1, 0, 0
    for match in TOKEN.finditer(text):
        place = Place(line, match.start() - begin + 1)
        if match.lastgroup == "bad":
            raise Fault(place, f"bad byte {shown_byte(match[0])}")
        if match.lastgroup:
            found.append(Token(match.lastgroup, match[0], place, match.start() == end))
            end = match.end()
        if "\n" in match[0]:
            line, begin = line + match[0].count("\n"), match.start() + match[0].rindex("\n") + 1
    return [*found, Token("end", "the end of the text", Place(line, len(text) - begin + 1), False)]


def shown_byte(byte):
    """A byte as it stands, or by its number where it is no sign of ASCII."""
    return f"'{byte}'" if "!" <= byte <= "~" else f"0x{ord(byte):02x}"


def continues_name(token):
    """Whether a name goes on with this token: a hole, or a word that is not reserved, right behind the one before."""
    return token.glued and (token.text == "{" or (token.kind == "word" and token.text not in RESERVED))


class Reader:
    """The tokens of a template, how many of them are read, the braces and parentheses that are open, and what ends the list of items that is read."""

    def __init__(self, text):
        self.tokens, self.at, self.open, self.ends = tokens_of(text), 0, [], ()

    @property
    def next(self):
        return self.tokens[self.at]

    def wrong(self, wanted, hint=""):
        """The fault of a token in the place of what is wanted."""
        shown = self.next.text if self.next.kind == "end" else f"'{self.next.text[:40]}'"
        if self.next.text in RESERVED and "name" in wanted:
            shown += ", which is a word of the language"
        if self.next.kind == "end" and self.open:
            hint = f" (the '{self.open[-1].text}' of line {self.open[-1].place.line} is open)"
        elif self.next.text in ("(", "+", "-", "*", "%") and wanted.endswith(("';'", "'}'")) and not hint:
            hint = " (a computed number is given a name before, by 'let v = ..')"
        return Fault(self.next.place, f"unexpected {shown}: {wanted} is wanted{hint}")

    def or_end(self, *wanted):
        """The words for one more item of the list that is read, or its end."""
        *first, last = [*wanted, *(f"'{end}'" for end in self.ends)]
        return f"{', '.join(first)} or {last}"

    def met(self, *texts):
        """Takes the next token where it is one of these, and gives it; else nothing."""
        if self.next.kind == "end" or self.next.text not in texts:
            return None
        self.at += 1
        return self.tokens[self.at - 1]

    def take(self, *texts):
        found = self.met(*texts)
        if not found:
            raise self.wrong(" or ".join(f"'{text}'" for text in texts))
        return found

    def word(self, wanted):
        """A word that is not reserved."""
        if self.next.kind != "word" or self.next.text in RESERVED:
            raise self.wrong(wanted)
        self.at += 1
        return self.tokens[self.at - 1]

    def deeper(self, read):
        """What is read within braces or parentheses, which may not stand in each other too deep."""
        self.open.append(self.tokens[self.at - 1])
        if len(self.open) > DEPTH:
            raise Fault(self.next.place, f"blocks and parentheses stand in each other more than {DEPTH} deep")
        found = read()
        if self.next.text in ("}", ")"):
            self.open.pop()
        return found

    # Names and numbers.

    def name(self, wanted="a name"):
        """Words and holes without a space between them."""
        place, pieces = self.next.place, [self.hole() if self.next.text == "{" else self.word(wanted).text]
        while continues_name(self.next) and (self.next.text == "{" or not isinstance(pieces[-1], str)):
            pieces.append(self.hole() if self.next.text == "{" else self.word(wanted).text)
        return Name(place, pieces)

    def hole(self):
        self.take("{")
        found = self.deeper(self.expression)
        if self.next.kind == "word":
            raise self.wrong("'}'", " (between a set and a name there is a space)")
        self.take("}")
        return found

    def begins_set(self):
        """Whether a set begins here, and not a name with a hole: that has a word or a hole right behind its first brace."""
        if self.next.text != "{":
            return False
        at, depth = self.at, 0
        while self.tokens[at].kind != "end":
            depth += {"{": 1, "}": -1}.get(self.tokens[at].text, 0)
            at += 1
            if depth == 0:
                break
        return not continues_name(self.tokens[at])

    def variable(self):
        """A word that a `let` or a loop may name."""
        found = self.word("the name of a variable")
        if found.text.isdigit():
            raise Fault(found.place, f"{found.text[:40]} is a number, and no name of a variable")
        return found

    def expression(self):
        return self.chain(("+", "-"), lambda: self.chain(("*", "%"), self.factor))

    def chain(self, signs, read):
        first, rest = read(), []
        while sign := self.met(*signs):
            rest.append((sign, read()))
        return Chain(first.place, first, rest) if rest else first

    def factor(self):
        if self.met("("):
            found = self.deeper(self.expression)
            self.take(")")
            return found
        if not (self.next.kind == "word" and self.next.text not in RESERVED):
            raise self.wrong("a number, a variable or '('", " (0 - 1 is the number below 0)" if self.next.text == "-" else "")
        found = self.next
        self.at += 1
        if not found.text.isdigit():
            return Variable(found.place, found.text)
        # (a long row of digits is not read as a number)
        if len(found.text) > 10 or int(found.text) > MOST:
            raise Fault(found.place, f"the number {found.text[:40]} is greater than {MOST}")
        return Number(found.place, int(found.text))

    # Lists of items.

    def items(self, read, ends=("}",)):
        """Items, loops, conditions and variables up to one of the ends, which is left; or to the end of the text where there are none."""
        found, before, self.ends = [], self.ends, ends
        while not (self.next.text in ends if ends else self.next.kind == "end"):
            found.append(self.around(read) or read())
        self.ends = before
        return found

    def around(self, read):
        """A loop, a condition or a variable around items, where one begins here."""
        begun = self.met("for", "if", "let")
        if begun is None:
            return None
        if begun.text == "let":
            return self.let(begun.place)
        if begun.text == "for":
            name = self.variable()
            self.take("in")
            return For(name.place, name.text, self.source(), self.block(read))
        left, sign = self.expression(), self.take(*COMPARISONS)
        return If(begun.place, left, sign, self.expression(), self.block(read))

    def let(self, place):
        name = self.variable()
        self.take("=")
        return Let(name.place, name.text, self.set() if self.next.text == "{" else self.expression())

    def source(self):
        """What a loop goes over."""
        if self.next.text == "{":
            return self.set()
        first = self.expression()
        if self.met(".."):
            return Range(first.place, first, self.expression())
        if not isinstance(first, Variable):
            raise self.wrong("'..'")
        return first

    def block(self, read):
        self.take("{")
        found = self.deeper(lambda: self.items(read))
        self.take("}")
        return found

    def set(self):
        place = self.next.place
        return Set(place, self.block(self.name_in_list))

    def name_in_list(self):
        if self.next.text in ("(", "+", "-", "*", "%"):
            raise self.wrong("a name or '}' (a hole in a name, or 'let v = ..' before, for a computed number)")
        return self.name("a name or '}'")

    # The template and its parts.

    def template(self):
        lets = []
        while self.next.text == "let":
            lets.append(self.let(self.take("let").place))
        place = self.take("protocol").place
        name, language = self.name(), self.met("language")
        if language:
            self.take("2")
        return Template(place, lets, name, bool(language), self.items(self.item, ends=()))

    def item(self):
        begun = self.next
        if begun.text in ("cell", "array", "channel", "stack", "lossy"):
            self.at += 1
            kind = "lossy channel" if begun.text == "lossy" and self.take("channel") else begun.text
            return Section(begun.place, kind, self.name(), self.block(self.name_in_list))
        if self.met("init", "bad"):
            return Row(begun.place, begun.text, self.block(self.part))
        if self.met("rule"):
            return Rule(begun.place, self.name(), self.block(self.step))
        raise self.wrong(self.or_end("a section", "a row", "a rule", "'let'", "'for'", "'if'"))

    def part(self):
        section = self.name("the name of a section or '}'")
        self.take(":")
        if self.next.text == ";":
            raise self.wrong("'empty', a letter, a set or 'any'")
        atoms = [] if self.met("empty") else self.items(self.atom, ends=(";",))
        self.take(";")
        return Part(section.place, section, atoms)

    def atom(self):
        base = self.base(self.or_end("a letter", "a set", "'any'"))
        repeat = self.met("*", "+")
        return Atom(base.place, base, repeat)

    def base(self, wanted, *more):
        """A letter, a set of letters, or `any`; or `same` where that may stand there."""
        if self.begins_set():
            return self.set()
        if found := self.met("any", *more):
            return Any(found.place) if found.text == "any" else Same(found.place)
        return self.name(wanted)

    def step(self):
        section = self.name("the name of a section or '}'")
        self.take(":")
        move = self.move()
        self.take(";")
        return Step(section.place, section, move)

    def move(self):
        begun = self.next
        many = {"at": 1, "set": 1, "pair": 2, "ring": 2, "two": 2}
        if self.met(*many):
            lefts = [self.base("a letter, a set or 'any'") for _ in range(many[begun.text])]
            self.take("->")
            rights = [self.base("a letter, a set, 'any' or 'same'", "same") for _ in lefts]
            guards = self.items(self.guard, ends=("map", ";")) if begun.text == "at" else []
            table = self.block(self.entry) if begun.text == "at" and self.met("map") else None
            return Move(begun.place, begun.text, lefts, rights, guards, table, None)
        if self.met("send", "recv", "spawn", "exit", "lose"):
            return Move(begun.place, begun.text, [self.base("a letter, a set or 'any'")], [], [], None, None)
        if self.met("pop"):
            popped = self.base("a letter, a set or 'any'")
            return Move(begun.place, "pop", [popped], [], [], None, self.pushed() if self.met("push") else None)
        if self.met("push"):
            return Move(begun.place, "push", [], [], [], None, self.pushed())
        raise self.wrong("a move")

    def pushed(self):
        """The letters that a move pushes."""
        def letter():
            same = self.met("same")
            return Same(same.place) if same else self.name(self.or_end("a letter"))
        if self.next.text == ";":
            raise self.wrong("a letter")
        return self.items(letter, ends=(";",))

    def guard(self):
        place = self.next.place
        if not self.met("when"):
            raise self.wrong(self.or_end("'when'"))
        quantifier, region = self.take("all", "some"), self.take("left", "right", "others")
        self.take("in")
        if self.next.text != "{":
            name = self.next.kind == "word" and self.next.text not in RESERVED
            raise self.wrong("'{'", f": write {{ {self.next.text[:40]} }}" if name else "")
        return Guard(place, quantifier, region, self.set().names)

    def entry(self):
        left = self.base("a letter, a set, 'any' or '}'")
        self.take("->")
        same = self.met("same")
        right = Same(same.place) if same else self.name("a letter or 'same'")
        self.take(";")
        return Entry(left.place, left, right)


def read_template(data):
    """The tree of a template's bytes."""
    if len(data) > BYTES:
        raise Fault(Place(1, 1), f"the template has more than {BYTES} bytes")
    return Reader(data.decode("latin-1")).template()


# What the head of a template says of values: the values of a line `# values: NAME=VALUE ..`, and the comment lines up to the next such line.
Case = collections.namedtuple("Case", "values lines place")
VALUE = re.compile(r"(?P<name>[A-Za-z0-9_]+)=(?:(?P<number>[0-9]{1,10})|\{(?P<names>[A-Za-z0-9_ \t]*)\})(?![^\s])")


def value_of(text):
    """The name and the value of `NAME=VALUE`: a number, or names in braces. None where the text is no such thing."""
    found = VALUE.fullmatch(text)
    if not found or found["name"].isdigit() or found["name"] in RESERVED or int(found["number"] or 0) > MOST:
        return None
    names = tuple((found["names"] or "").split())
    if any(name in RESERVED or len(name) > 32 for name in names):
        return None
    return found["name"], int(found["number"]) if found["number"] else names


def not_value(text):
    """Why a text is no value."""
    word = next((word for word in re.findall(r"\w+", text, re.A) if word in RESERVED), None) if VALUE.fullmatch(text) else None
    return f"'{text[:40]}' is no value: {f'{word} is a word of the language' if word else 'NAME=NUMBER or NAME={NAME ..}'}"


def values_of(line, place):
    """The values of the rest of a line `# values: ..`."""
    values, rest = {}, line.strip()
    while rest or not values:
        found = VALUE.match(rest)
        pair = value_of(found[0]) if found else None
        if not pair or pair[0] in values:
            raise Fault(place, f"there are two values of {pair[0]}" if pair else not_value(found[0] if found else rest))
        values[pair[0]] = pair[1]
        rest = rest[found.end():].lstrip()
    return values


def head_of(text):
    """The comment lines before the first word of a template: those before the first line of values, and the cases that these lines begin."""
    general, cases = [], []
    for number, line in enumerate(text.split("\n"), 1):
        line = line.strip(" \t\r")
        if not line.startswith("#"):
            if line:
                break
            continue
        found = re.fullmatch(r"#[ \t]*values:(.*)", line)
        near = re.fullmatch(r"#[ \t]*value:[ \t]*(.*)", line)
        if near and VALUE.match(near[1]):
            raise Fault(Place(number, line.index("value:") + 1), "'value:' is no word of a head, but 'values:'")
        if found:
            place = Place(number, line.index("values:") + 1)
            cases.append(Case(values_of(found[1], place), [], place))
        else:
            (cases[-1].lines if cases else general).append(line)
    return general, cases
