"""What a template means: the protocol that it writes (docs/TEMPLATES.md), by one walk over its tree, with the place that each word comes from.

The limits of protocols are met while it writes, so that no loop goes on past them, and steps are counted, so that no loop goes on without writing.
"""
import collections
import itertools
import os
import re

from .templates import MOST, RESERVED, Any, Chain, Fault, For, If, Let, Name, Number, Place, Range, Row, Rule, Same, Section, Set, Variable, head_of, read_template

# The limits of docs/LANGUAGE.md.
BYTES, NAME_BYTES, SECTIONS, LETTERS, RULES, ROWS, ATOMS, GUARDS, PUSHED = 1 << 20, 32, 16, 256, 256, 32, 32, 4, 4
# A list has so many names at most, and an expansion takes so many steps: one for each item, each pass of a loop, and each name.
NAMES, STEPS = 256, 250_000

# A written word: its text and the place that it comes from. In a rule a Choice stands for a letter that is chosen, by its number.
Word = collections.namedtuple("Word", "text place")
Choice = collections.namedtuple("Choice", "number place")

NUMBER_SIGNS = {
    "==": lambda a, b: a == b, "!=": lambda a, b: a != b, "<": lambda a, b: a < b, "<=": lambda a, b: a <= b,
    ">": lambda a, b: a > b, ">=": lambda a, b: a >= b,
}


class Unknown(Exception):
    """The template has no variable at its top that may have a given value."""


def is_list(value):
    """Whether a value is a list of names; the others are numbers, and names, which are texts."""
    return type(value) is tuple


class Written:
    """The protocol that a template writes: its text, the values by which it is told, and where each of its words comes from."""

    def __init__(self, name, lines, values, comments):
        self.name, self.values = name, values
        told = [(line, []) for line in (*comments, f"# from {self.title()}")]
        for comment, words in lines:
            told += [(comment, [])] if comment else []
            told += [laid_out(words)] if words else []
        self.text, self.places = "".join(f"{line}\n" for line, _ in told), [places for _, places in told]

    def title(self):
        return titled(self.name, self.values)

    def place(self, line, column):
        """The template's place of what stands at a place of the text."""
        for places in self.places[:line][::-1]:
            before = [place for at, place in places if at <= column]
            if before:
                return before[-1]
            column = len(self.text)
        return Place(1, 1)

    def told(self, refusal):
        """What armc says where it refuses the text, with the place in the template."""
        found = re.match(r"armc: protocol: line (\d+) column (\d+): (.*)", refusal)
        return f"template: {Fault(self.place(int(found[1]), int(found[2])), found[3])}" if found else refusal


def pairs(values):
    """Values as they are given: 'n=2' and 'R={a b}'."""
    return [f"{name}={'{' + ' '.join(value) + '}' if is_list(value) else value}" for name, value in values.items()]


def titled(name, values):
    """'window.armct with n=2, R={a b}'."""
    shown = "".join(c if c.isprintable() else "?" for c in os.path.basename(name))
    return f"{shown} with {', '.join(pairs(values))}" if values else shown


def laid_out(words):
    """A line in the canonical layout, and the column of each word with its place."""
    pieces, places, column = [], [], 1
    for word in words:
        space = " " if pieces and word.text not in (":", ";", "*", "+") else ""
        places.append((column + len(space), word.place))
        pieces.append(space + word.text)
        column += len(pieces[-1])
    return "".join(pieces), places


class Expander:
    """The walk over a tree: the values of variables, what is written so far, and its counts."""

    def __init__(self, shown, given):
        self.shown, self.given = shown, given
        # The values of all variables, and of those at the top; the names of the loops' variables; where each was bound.
        self.values, self.top, self.loops, self.bound = {}, {}, [], {}
        # What is written: a comment or none, and words; the letters of each section with their places, and the places of the rules.
        self.lines, self.sections, self.rules = [], {}, {}
        self.counts, self.bytes, self.steps, self.order = collections.Counter(), 0, 0, 0

    # Faults and limits.

    def fault(self, place, text):
        """A fault, with the values that the loops around it have."""
        where = ", ".join(f"{name}={self.values[name]}" for name in self.loops)
        return Fault(place, f"{text} (with {where})" if where else text)

    def step(self, place):
        self.steps += 1
        if self.steps > STEPS:
            raise self.fault(place, f"the template takes more than {STEPS} steps to write out")

    def count(self, place, what, most):
        self.counts[what] += 1
        if self.counts[what] > most:
            raise self.fault(place, f"too many {what}: a protocol has at most {most}")

    def line(self, words, comment=None):
        """Writes a line, and counts its bytes."""
        self.bytes += sum(len(word.text) + 1 for word in words)
        if self.bytes > BYTES:
            raise self.fault(words[0].place, f"too many bytes: a protocol has at most {BYTES}")
        self.lines.append((comment, words))

    # Variables and expressions.

    def bind(self, place, name, value):
        if name in self.values:
            raise self.fault(place, f"there is a variable {name} here already")
        self.values[name] = value
        self.bound.setdefault(name, place)

    def value(self, tree):
        """The value of an expression: a number, a name or a list of names."""
        if isinstance(tree, Number):
            return tree.value
        if isinstance(tree, Chain):
            return self.chain(tree)
        if tree.name not in self.values:
            raise self.fault(tree.place, f"unknown variable {tree.name}")
        return self.values[tree.name]

    def chain(self, tree):
        found = self.number(tree.first)
        for sign, term in tree.rest:
            right = self.number(term)
            if sign.text == "%" and right < 1:
                raise self.fault(sign.place, f"the number after % is {right}, and must be at least 1")
            found = found + right if sign.text == "+" else found - right if sign.text == "-" else found * right if sign.text == "*" else found % right
            if abs(found) > MOST:
                raise self.fault(sign.place, f"a number that is not from -{MOST} to {MOST}")
        return found

    def number(self, tree):
        found = self.value(tree)
        if not isinstance(found, int):
            raise self.fault(tree.place, f"{tree.name} is a {'name' if isinstance(found, str) else 'list of names'}, and no number")
        return found

    def sides(self, tree):
        """The values of both sides of a comparison. A word that no variable has is a name where the other side is one."""
        def written(side, other):
            return isinstance(side, Variable) and side.name not in self.values and isinstance(other, Variable) and isinstance(self.values.get(other.name), str)
        left, right = tree.left, tree.right
        return left.name if written(left, right) else self.value(left), right.name if written(right, left) else self.value(right)

    def holds(self, tree):
        left, right = self.sides(tree)
        if is_list(left) or type(left) is not type(right):
            raise self.fault(tree.sign.place, "two numbers or two names are compared, and no other values")
        if isinstance(left, str) and tree.sign.text not in ("==", "!="):
            raise self.fault(tree.sign.place, "names are compared by == and != alone")
        return NUMBER_SIGNS[tree.sign.text](left, right)

    # Items of any kind.

    def each(self, items, write):
        """Writes each item, with the loops, conditions and variables around them."""
        mine = []
        for item in items:
            self.step(item.place)
            if isinstance(item, Let):
                self.let(item)
                mine.append(item.name)
            elif isinstance(item, If):
                if self.holds(item):
                    self.each(item.body, write)
            elif isinstance(item, For):
                self.loop(item, write)
            else:
                write(item)
        for name in mine:
            del self.values[name]

    def let(self, item):
        self.bind(item.place, item.name, self.listed(item.value) if isinstance(item.value, Set) else self.value(item.value))

    def let_at_top(self, item):
        """A variable at the top, whose value may be given."""
        self.step(item.place)
        self.let(item)
        if item.name in self.given:
            given = self.given[item.name]
            if is_list(given) != is_list(self.values[item.name]):
                raise Unknown(f"{item.name} is a {'number' if is_list(given) else 'list of names'} in the template")
            self.values[item.name] = given
        self.top[item.name] = self.values[item.name]

    def loop(self, item, write):
        if isinstance(item.source, Range):
            values = range(self.number(item.source.first), self.number(item.source.end))
        elif isinstance(item.source, Set):
            values = self.listed(item.source)
        else:
            values = self.value(item.source)
            if not is_list(values):
                raise self.fault(item.source.place, f"{item.source.name} is no list of names")
        for value in values:
            self.step(item.place)
            self.bind(item.place, item.name, value)
            self.loops.append(item.name)
            self.each(item.body, write)
            self.loops.pop()
            del self.values[item.name]

    # Names.

    def name(self, tree, hint=""):
        """One name: the value of the variable where it is one, or the pieces with the values of their holes."""
        found = self.name_or_list(tree)
        if is_list(found):
            raise self.fault(tree.place, f"{tree.pieces[0]} is a list of names, and one name is wanted{hint}")
        return found

    def letter(self, tree):
        """A name where a set might stand too."""
        return self.name(tree, f": write {{ {tree.pieces[0]} }}")

    def name_or_list(self, tree):
        """The name of a tree as a word, or the list that its variable is."""
        if len(tree.pieces) == 1 and isinstance(tree.pieces[0], str):
            found = self.values.get(tree.pieces[0], tree.pieces[0])
            if is_list(found):
                return found
            text = self.piece(tree.place, found)
        else:
            text = "".join(piece if isinstance(piece, str) else self.hole(piece) for piece in tree.pieces)
        if len(text) > NAME_BYTES:
            raise self.fault(tree.place, f"too many name bytes: {text[:80]} has {len(text)}, and a name at most {NAME_BYTES}")
        if text in RESERVED:
            raise self.fault(tree.place, f"{text} is a word of the language, and no name")
        return Word(text, tree.place)

    def hole(self, tree):
        found = self.value(tree)
        if is_list(found):
            raise self.fault(tree.place, f"{tree.name} is a list of names, and a number or one name is wanted")
        return self.piece(tree.place, found)

    def piece(self, place, value):
        """What a number or a name is in a name."""
        if isinstance(value, int) and value < 0:
            raise self.fault(place, f"a name cannot hold the number {value}")
        return str(value)

    def names(self, items, write):
        """Writes each name of a list, and those of the lists that it names."""
        def one(tree):
            found = self.name_or_list(tree)
            for word in [Word(name, tree.place) for name in found] if is_list(found) else [found]:
                self.step(tree.place)
                write(word)
        self.each(items, one)

    def listed(self, tree):
        """The names of a list in braces."""
        found = []

        def one(word):
            found.append(word.text)
            if len(found) > NAMES:
                raise self.fault(word.place, f"a list of names with more than {NAMES}")
        self.names(tree.names, one)
        return tuple(found)

    def set(self, place, items):
        """The words of a set."""
        found = [Word("{", place)]
        self.names(items, found.append)
        return [*found, Word("}", place)]

    # The parts of a protocol.

    def template(self, tree):
        self.given_at_top(tree)
        for item in tree.lets:
            self.let_at_top(item)
        name = self.name(tree.name)
        self.line([Word("protocol", tree.place), name, *(Word(text, name.place) for text in (("language", "2") if tree.language else ()))])
        for item in tree.items:
            if isinstance(item, Let):
                self.let_at_top(item)
            else:
                self.each([item], self.item)
        if not self.sections:
            raise Fault(tree.place, "there is no section, and a protocol has at least one")
        self.captured()

    def given_at_top(self, tree):
        """Each given value is one of a variable at the top."""
        names = names_at_top(tree)
        for name in self.given:
            if name not in names:
                raise Unknown(f"the template has no variable {name} at its top" + (f", but {', '.join(names)}" if names else ""))

    def values_at_top(self, tree):
        """The values of the variables at the top."""
        self.given_at_top(tree)
        for item in [*tree.lets, *tree.items]:
            if isinstance(item, Let):
                self.let_at_top(item)
        return self.top

    def captured(self):
        """A letter, a section or a rule that is named as a variable would be taken for it."""
        for section, letters in self.sections.items():
            for name in (section, *letters):
                if name in self.bound:
                    what = f"section {name}" if name == section else f"letter {name} of {section}"
                    raise Fault(self.bound[name], f"the variable {name} is named as the {what}")
        for name in self.rules:
            if name in self.bound:
                raise Fault(self.bound[name], f"the variable {name} is named as the rule {name}")

    def item(self, item):
        kinds = [isinstance(item, Section), isinstance(item, Row) and item.word == "init", isinstance(item, Rule), True]
        if kinds.index(True) < self.order:
            raise self.fault(item.place, "sections come first, then init rows, then rules, then bad rows")
        self.order = kinds.index(True)
        (self.section, self.row, self.rule, self.row)[self.order](item)

    def section(self, item):
        self.count(item.place, "sections", SECTIONS)
        name, letters = self.name(item.name), {}
        if name.text in self.sections:
            raise self.fault(name.place, f"duplicate section {name.text}")
        words = [*(Word(word, item.place) for word in item.kind.split()), name, Word("{", item.place)]

        def letter(word):
            self.count(word.place, "letters", LETTERS)
            if word.text in letters:
                raise self.fault(word.place, f"duplicate letter {word.text}{first_at(letters[word.text])}")
            letters[word.text] = word.place
            words.append(word)
        self.names(item.letters, letter)
        if not letters:
            raise self.fault(item.place, f"the section {name.text} has no letter")
        self.sections[name.text] = letters
        self.line([*words, Word("}", item.place)])

    def row(self, item):
        self.count(item.place, f"{item.word} rows", ROWS)
        words, places = [Word(item.word, item.place), Word("{", item.place)], {}

        def part(tree):
            section = self.name(tree.section)
            if section.text in places:
                raise self.fault(section.place, f"duplicate section {section.text} in a row{first_at(places[section.text])}")
            places[section.text] = section.place
            words.extend([section, Word(":", section.place), *self.pattern(tree), Word(";", section.place)])
        self.each(item.parts, part)
        self.line([*words, Word("}", item.place)], self.origin(item))

    def pattern(self, part):
        words, count = [], itertools.count(1)

        def atom(tree):
            if next(count) > ATOMS:
                raise self.fault(tree.place, f"too many atoms: a pattern has at most {ATOMS}")
            words.extend(self.base(tree.base))
            words.extend([Word(tree.repeat.text, tree.repeat.place)] if tree.repeat else [])
        self.each(part.atoms, atom)
        return words or [Word("empty", part.place)]

    def base(self, tree):
        """The words of a letter, a set or `any` that stays as it is."""
        if isinstance(tree, Set):
            return self.set(tree.place, tree.names)
        return [Word("any", tree.place) if isinstance(tree, Any) else self.letter(tree)]

    # Rules.

    def rule(self, item):
        """Writes a rule for each choice of letters, in the order in which they stand."""
        name, words, choices = self.name(item.name), [], []
        self.each(item.steps, lambda step: words.extend(self.moved(step, choices)))
        if not all(choices):
            self.lines.append((f"{self.origin(item)}: no rule {name.text} (an empty set)", []))
        for chosen in itertools.product(*choices):
            self.step(item.place)
            self.count(item.place, "rules", RULES)
            text = "_".join([name.text, *(letter.text for letter in chosen)])
            if len(text) > NAME_BYTES:
                raise self.fault(name.place, f"too many name bytes: {text[:80]} has {len(text)}, and a name at most {NAME_BYTES}")
            if text in self.rules:
                raise self.fault(name.place, f"duplicate rule {text}{first_at(self.rules[text])}")
            self.rules[text] = name.place
            moves = [Word(chosen[word.number].text, word.place) if isinstance(word, Choice) else word for word in words]
            self.line([Word("rule", item.place), Word(text, name.place), Word("{", item.place), *moves, Word("}", item.place)], self.origin(item))

    def origin(self, item):
        """The comment that tells where a row or a rule comes from."""
        return f"# from {self.shown}:{item.place.line}"

    def moved(self, step, choices):
        """The words of a move, where choices are numbered; the letters of each are added to the choices."""
        section, move = self.name(step.section), step.move
        words, place = [section, Word(":", section.place), Word(move.word, move.place)], move.place
        if move.word == "lose":
            return [*words, *self.base(move.lefts[0]), Word(";", place)]
        lefts = [self.chosen(tree, section, choices) for tree in move.lefts]
        rights = [left if isinstance(tree, Same) else self.chosen(tree, section, choices) for tree, left in zip(move.rights, lefts)]
        words += [*lefts, *([Word("->", place), *rights] if rights else [])]
        words += self.guarded(move)
        if move.table is not None:
            words += self.table(move, section)
        if move.pushed is not None:
            words += self.pushed(move, lefts)
        return [*words, Word(";", place)]

    def chosen(self, tree, section, choices):
        """A letter, or a choice of several."""
        if not isinstance(tree, (Set, Any)):
            return self.letter(tree)
        choices.append(self.letters_of(tree, section))
        return Choice(len(choices) - 1, tree.place)

    def letters_of(self, tree, section):
        """The letters of a set, or all of the section, as words."""
        if isinstance(tree, Set):
            return [Word(name, tree.place) for name in self.listed(tree)]
        if section.text not in self.sections:
            raise self.fault(section.place, f"unknown section {section.text}")
        return [Word(letter, tree.place) for letter in self.sections[section.text]]

    def guarded(self, move):
        words, count = [], itertools.count(1)

        def guard(tree):
            if next(count) > GUARDS:
                raise self.fault(tree.place, f"too many guards: a move has at most {GUARDS}")
            said = [Word(token.text, token.place) for token in (tree.quantifier, tree.region)]
            words.extend([Word("when", tree.place), *said, Word("in", tree.place), *self.set(tree.place, tree.names)])
        self.each(move.guards, guard)
        return words

    def table(self, move, section):
        """The words of a table, in which a set on the left is an entry for each of its letters."""
        words, places = [], {}

        def entry(tree):
            lefts = self.letters_of(tree.left, section) if isinstance(tree.left, (Set, Any)) else [self.letter(tree.left)]
            for left in lefts:
                self.step(tree.place)
                if left.text in places:
                    raise self.fault(left.place, f"duplicate letter {left.text} on the left of a table{first_at(places[left.text])}")
                places[left.text] = left.place
                right = Word(left.text, tree.right.place) if isinstance(tree.right, Same) else self.name(tree.right)
                words.extend([left, Word("->", left.place), right, Word(";", left.place)])
        self.each(move.table, entry)
        return [Word("map", move.place), Word("{", move.place), *words, Word("}", move.place)] if words else []

    def pushed(self, move, lefts):
        words = []

        def push(found):
            if len(words) == PUSHED:
                raise self.fault(found.place, f"too many pushed letters: a move has at most {PUSHED}")
            words.append(found)

        def letter(tree):
            if not isinstance(tree, Same):
                self.names([tree], push)
            elif lefts:
                push(lefts[0])
            else:
                raise self.fault(tree.place, "'same' is the letter that the move pops, and it pops none")
        self.each(move.pushed, letter)
        if not words and not lefts:
            raise self.fault(move.place, "the move pushes no letter")
        # (after `push` alone its word stands already)
        return [Word("push", move.place), *words] if words and lefts else words


def first_at(place):
    return f", first at line {place.line} column {place.column}"


def is_plain(tree, names):
    """Whether what a variable at the top is said to be depends on no other variable and on no loop."""
    if isinstance(tree, Set):
        return all(isinstance(item, Name) and len(item.pieces) == 1 and isinstance(item.pieces[0], str) and item.pieces[0] not in names
                   for item in tree.names)
    if isinstance(tree, Chain):
        return all(is_plain(term, names) for term in [tree.first, *(term for _, term in tree.rest)])
    return isinstance(tree, Number)


def told_values(tree, given, values):
    """The values that decide what is written: the given ones, and those that depend on no other."""
    lets = [item for item in [*tree.lets, *tree.items] if isinstance(item, Let)]
    names = names_at_top(tree)
    return {item.name: values[item.name] for item in lets if item.name in given or is_plain(item.value, names)}


def names_at_top(tree):
    """The names of the variables at the top, whose values can be given."""
    return [item.name for item in [*tree.lets, *tree.items] if isinstance(item, Let)]


def keyed(line):
    """The word before the colon of a comment line, as in `# expect: safe`."""
    return line.lstrip("# \t").partition(":")[0]


def values_of_cases(tree, cases):
    """The values that all variables at the top have in each case of the head; the steps of all cases are counted together."""
    steps = 0
    for case in cases:
        expander = Expander("", case.values)
        expander.steps = steps
        try:
            yield expander.values_at_top(tree)
        except Unknown as fault:
            raise Fault(case.place, str(fault)) from None
        steps = expander.steps


def expand(name, data, given=(), case=None):
    """The protocol that the bytes of a template write with the given values in the place of its own. The comments are those of a case of the head:
    the one of this number, or the first one of the same values."""
    tree, (general, cases) = read_template(data), head_of(data.decode("utf-8", "replace"))
    expander, known = Expander(titled(name, {}), dict(given)), list(values_of_cases(tree, cases))
    expander.template(tree)
    case = known.index(expander.top) if case is None and expander.top in known else case
    own = [] if case is None else cases[case].lines
    keys = {keyed(line) for line in own}
    comments = [line for line in general if keyed(line) not in keys] + own
    written = Written(name, expander.lines, told_values(tree, expander.given, expander.top), comments)
    if len(written.text.encode()) > BYTES:
        raise Fault(Place(1, 1), f"too many bytes with the comments: a protocol has at most {BYTES}")
    return written


def chosen_cases(data, given):
    """The values with which a template is looked at, each with the number of its case in the head or None: the given ones that it has variables for,
    or else those of each case, or its own. Of the given ones there are as many as cases with the same values."""
    tree, cases = read_template(data), head_of(data.decode("utf-8", "replace"))[1]
    own = {name: value for name, value in given.items() if name in names_at_top(tree)}
    if not own:
        return [(case.values, k) for k, case in enumerate(cases)] or [({}, None)]
    try:
        wanted = Expander("", own).values_at_top(tree)
        return [(own, k) for k, known in enumerate(values_of_cases(tree, cases)) if known == wanted] or [(own, None)]
    except (Fault, Unknown):
        # (it is told where the template is written out)
        return [(own, None)]


def named_cases(data, given):
    """The chosen cases, each with the words that name it: its values, and the line of the head where several cases have these."""
    found, cases = chosen_cases(data, given), head_of(data.decode("utf-8", "replace"))[1]
    counts = collections.Counter(tuple(pairs(values)) for values, _ in found)
    return [(pairs(values) + ([f"(line {cases[k].place.line})"] if counts[tuple(pairs(values))] > 1 else []), values, k) for values, k in found]


def expanded_cases(name, data, given):
    """What a template writes for each case: the words that name it, as its values are given, and the protocol, or the text of its refusal."""
    def written(values, case):
        try:
            return expand(name, data, values, case)
        except (Fault, Unknown) as fault:
            return f"template: {fault}"
    try:
        return [(words, written(values, case)) for words, values, case in named_cases(data, given)]
    except Fault as fault:
        return [([], f"template: {fault}")]
