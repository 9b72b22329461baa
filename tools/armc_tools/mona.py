"""A formula of WS1S, in the language of MONA, that is valid exactly where an automaton proves a protocol (docs/CERTIFICATES.md, As a formula).

A place of a word holds a letter as bits: `p in b0` says that bit 0 of the letter at place p is 1, for the word before a step; `c0 ..` are the word
after it, side by side on the same places, with a blank where a letter comes or goes, so that nothing moves. Each separator has a letter of its own,
the last one is the end. Rows and rules are predicates over places (Klarlund, Moller: MONA version 1.4, 2001); no automaton but the proof's is told.
"""
import collections
import textwrap

from .texts import SEPARATOR

BLANK = 0
# A part of the question: which kind and number, the line of the protocol that it is about, its words (b, or b and c), and its formula.
Part = collections.namedtuple("Part", "kind number name line words formula")
# What a move does at a place: the letters that may be there before and the one behind it, None for a blank, and what holds of the place.
Change = collections.namedtuple("Change", "place old new where")


def conj(parts):
    parts = [each for each in parts if each != "true"]
    return "false" if "false" in parts else "true" if not parts else parts[0] if len(parts) == 1 else f"({' & '.join(parts)})"


def disj(parts):
    parts = [each for each in parts if each != "false"]
    return "true" if "true" in parts else "false" if not parts else parts[0] if len(parts) == 1 else f"({' | '.join(parts)})"


def wrapped(line):
    """The line in lines of at most 200 bytes, broken at spaces."""
    indent = "# " if line[0] == "#" else "  "
    return "\n".join(textwrap.wrap(line, 200, break_long_words=False, break_on_hyphens=False, subsequent_indent=indent)) + "\n"


def split(ways, names, place):
    """The formula whose way is the one of the number that these bits have at the place, by splitting on one bit after the other, the highest first."""
    if not names or not ways:
        return ways.get(0, "false")
    half = 2 ** (len(names) - 1)
    low = split({number: way for number, way in ways.items() if number < half}, names[:-1], place)
    high = split({number - half: way for number, way in ways.items() if number >= half}, names[:-1], place)
    return low if low == high else disj([conj([f"{place} notin {names[-1]}", low]), conj([f"{place} in {names[-1]}", high])])


def is_one_of(numbers, names, place):
    """The number that these bits have at the place is one of these."""
    return split(dict.fromkeys(numbers, "true"), names, place)


def bits(word, count):
    """Names of so many bits as numbers below the count need."""
    return [f"{word}{k}" for k in range(max(1, (count - 1).bit_length()))]


class Letters:
    """Letters as numbers: 0 is the blank, then come the letters of the sections, and then the separator behind each section."""

    def __init__(self, sections):
        self.sections, self.number = sections, {}
        for k, section in enumerate(sections):
            for letter in section.letters:
                self.number[k, letter] = len(self.number) + 1
        first = len(self.number) + 1
        self.separators = [first + k for k in range(len(sections))]
        self.count = first + len(sections)
        self.sets = {}

    def names(self, word):
        return bits(word, self.count)

    def of(self, letters):
        return [self.number[letter] for letter in letters]

    def section(self, k):
        return self.of((k, letter) for letter in self.sections[k].letters)

    def at(self, numbers, word, place):
        """The letter of the word at the place is one of these: a predicate for each set of letters."""
        numbers = frozenset(numbers)
        if not numbers:
            return "false"
        if numbers not in self.sets:
            self.sets[numbers] = f"L{len(self.sets)}", is_one_of(numbers, self.names("x"), "p")
        return f"{self.sets[numbers][0]}({place}, {', '.join(self.names(word))})"

    def told(self, number):
        """A letter as in certificates; the separators are told apart."""
        if number == BLANK:
            return "blank"
        if number in self.separators:
            return f"|{self.sections[self.separators.index(number)].name}"
        return next(f"{self.sections[k].name}.{letter}" for (k, letter), each in self.number.items() if each == number)

    def definitions(self):
        head = f"(var1 p, {', '.join('var2 ' + each for each in self.names('x'))})"
        return [line for numbers, (name, formula) in self.sets.items()
                for line in (f"# {name}: {' '.join(map(self.told, sorted(numbers)))}", f"pred {name}{head} = {formula};")]


class Shape:
    """Which words are those of configurations, and what two words side by side are."""

    def __init__(self, letters):
        self.letters, self.sections = letters, letters.sections

    def within(self, k, word, place):
        return self.letters.at(self.letters.section(k), word, place)

    def behind(self, k, word, place):
        """The place is the separator behind the section."""
        return self.letters.at([self.letters.separators[k]], word, place)

    def blank(self, word, place):
        return self.letters.at([BLANK], word, place)

    def either(self, k, place):
        """The place is one of the section in one of two words."""
        return disj([self.within(k, "b", place), self.within(k, "c", place)])

    def same(self, place):
        names = zip(self.letters.names("b"), self.letters.names("c"))
        return conj([f"({place} in {one} <=> {place} in {two})" for one, two in names])

    def first(self, k, place):
        return f"{place} = 0" if k == 0 else f"(ex1 s: {self.behind(k - 1, 'b', 's')} & {place} = s+1)"

    def last(self, k, place):
        return self.behind(k, "b", f"{place}+1")

    def one_word(self):
        return self.shape(lambda k, p: self.within(k, "b", p), lambda k, p: self.behind(k, "b", p), self.blank("b", "p"))

    def two_words(self):
        """At each place of a section at least one of both words has a letter, the other one a letter of the same section or a blank."""
        def inside(k, p):
            mine = self.letters.section(k)
            both = conj([self.letters.at(mine, "b", p), self.letters.at([BLANK, *mine], "c", p)])
            return disj([both, conj([self.blank("b", p), self.letters.at(mine, "c", p)])])
        return self.shape(inside, lambda k, p: conj([self.behind(k, "b", p), self.behind(k, "c", p)]), conj([self.blank("b", "p"), self.blank("c", "p")]))

    def shape(self, inside, behind, blank):
        """Each place has a class, neighbours have classes that follow each other, and behind the end, and there alone, all is blank."""
        def begin(k, place):
            return disj([inside(k, place)] + ([] if self.sections[k].kind == "cell" else [behind(k, place)]))
        parts, last = [begin(0, "0")], len(self.sections) - 1
        for k, section in enumerate(self.sections):
            after = behind(k, "p+1") if section.kind == "cell" else disj([inside(k, "p+1"), behind(k, "p+1")])
            parts.append(f"(all1 p: ({inside(k, 'p')} => {after}))")
            if k < last:
                parts.append(f"(all1 p: ({behind(k, 'p')} => {begin(k + 1, 'p+1')}))")
        before_end = disj([each for k in range(last + 1) for each in (inside(k, "p"), behind(k, "p"))][:-1])
        parts.append(f"(ex1 e: {behind(last, 'e')} & (all1 p: (p < e => {before_end}) & (e < p => {blank})))")
        return " & ".join(parts)


class Rows:
    """What rows say of the word b, as predicates: of atom `i` of a pattern, that from a place on the list matches the atoms from there."""

    def __init__(self, shape):
        self.shape, self.letters, self.definitions, self.count = shape, shape.letters, [], 0

    def formulas(self, row):
        return [self.pattern(k, atoms) for k, atoms in row.parts.items()]

    def pattern(self, k, atoms):
        base, names = f"R{self.count}_", self.letters.names("b")
        self.count += 1
        actual, formal = ", ".join(names), ", ".join(f"var2 {name}" for name in names)
        bodies = [self.atom(atom, f"{base}{at + 1}", actual) for at, atom in enumerate(atoms)] + [self.shape.behind(k, "b", "p")]
        for at in reversed(range(len(bodies))):
            self.definitions.append(f"pred {base}{at}(var1 p, {formal}) = {bodies[at]};")
        if k == 0:
            return f"{base}0(0, {actual})"
        return f"(ex1 s: {self.shape.behind(k - 1, 'b', 's')} & {base}0(s+1, {actual}))"

    def atom(self, atom, following, actual):
        def letter(place):
            return self.letters.at(self.letters.of(atom.letters), "b", place)
        if not atom.sign:
            return conj([letter("p"), f"{following}(p+1, {actual})"])
        order = "p <= q" if atom.sign == "*" else "p < q"
        return f"(ex1 q: {order} & {following}(q, {actual}) & (all1 r: (p <= r & r < q => {letter('r')})))"


class Rules:
    """What rules say: that a step leads from the word b to the word c, and that the rule can fire at the word b."""

    def __init__(self, shape):
        self.shape, self.letters = shape, shape.letters

    def step(self, rule):
        return [self.moved(k, rule.moves[k]) if k in rule.moves else self.rest(k, []) for k in range(len(self.shape.sections))]

    def enabled(self, rule):
        return conj([self.possible(k, move) for k, move in rule.moves.items()])

    def moved(self, k, move):
        changes = self.changes(k, move)
        places = [change.place for change in changes]
        parts = [part for change in changes for part in (*change.where, self.old(change, "b"), self.letters.at(self.numbers(change.new), "c", change.place))]
        return f"(ex1 {', '.join(places)}: {conj([*parts, self.rest(k, places, move.table)])})"

    def possible(self, k, move):
        """The part of a move that is about the word before it: a place with a blank there is no place of it."""
        changes = [change for change in self.changes(k, move) if change.old is not None]
        parts = [part for change in changes for part in (*change.where, self.old(change, "b"))]
        return f"(ex1 {', '.join(change.place for change in changes)}: {conj(parts)})" if changes else "true"

    def numbers(self, letter):
        return [BLANK] if letter is None else self.letters.of([letter])

    def old(self, change, word):
        return self.letters.at([BLANK] if change.old is None else self.letters.of(change.old), word, change.place)

    def rest(self, k, places, table=None):
        """All other places of the section keep their letters, or get those of the table."""
        apart = conj([self.shape.either(k, "i"), *(f"i ~= {each}" for each in places)])
        return f"(all1 i: ({apart} => {self.mapped(k, table) if table else self.shape.same('i')}))"

    def mapped(self, k, table):
        stay = [number for letter, number in self.letters.number.items() if letter[0] == k and letter not in table]
        ways = [conj([self.letters.at(stay, "b", "i"), self.shape.same("i")])] if stay else []
        for after in dict.fromkeys(table.values()):
            before = [letter for letter in table if table[letter] == after]
            ways.append(conj([self.letters.at(self.letters.of(before), "b", "i"), self.letters.at(self.letters.of([after]), "c", "i")]))
        return disj(ways)

    def changes(self, k, move):
        """What a move does, place by place."""
        word, letters, shape = move.word, move.letters, self.shape
        if word == "at":
            return [Change("p", letters[:1], letters[1], [self.guard(k, guard) for guard in move.guards])]
        if word in ("pair", "two", "ring"):
            a, b, c, d = letters
            where = {"pair": ["q = p+1"], "two": ["p ~= q"], "ring": [shape.first(k, "q"), shape.last(k, "p"), "q < p"]}[word]
            return [Change("p", [a], c, []), Change("q", [b], d, where)]
        if word in ("spawn", "send"):
            return [Change("p", None, letters[0], [shape.last(k, "p")])]
        if word in ("pop", "push"):
            steps = [(letters[:1], None)] if word == "pop" else []
            steps += [(None, letter) for letter in letters[len(steps):]]
            return [Change(f"p{at}", old, new, [f"p{at} = p{at - 1}+1" if at else shape.first(k, "p0")]) for at, (old, new) in enumerate(steps)]
        if word == "set":
            return [Change("p", letters[:1], letters[1], [])]
        return [Change("p", sorted(letters[0]) if word == "lose" else letters, None, [shape.first(k, "p")] if word == "recv" else [])]

    def guard(self, k, guard):
        where = conj([self.shape.within(k, "b", "i"), {"left": "i < p", "right": "p < i", "others": "i ~= p"}[guard.region]])
        held = self.letters.at(self.letters.of(guard.letters), "b", "i")
        return f"(all1 i: ({where} => {held}))" if guard.quantifier == "all" else f"(ex1 i: {conj([where, held])})"


class Accepted:
    """The automaton as a predicate: its run as bits of states, one at the place of each letter that is read. There is one run at most."""

    def __init__(self, shape, proof):
        self.shape, self.letters, self.proof = shape, shape.letters, proof

    def of(self, word):
        return f"accepted({', '.join(self.letters.names(word))})"

    def definition(self):
        head, names = ", ".join(f"var2 {each}" for each in self.letters.names("x")), bits("r", self.proof.states)
        body = f"ex2 {', '.join(names)}: {self.run(names)}" if self.proof.states else "false"
        return f"pred accepted({head}) = {body};"

    def run(self, names):
        last = len(self.shape.sections) - 1
        final = is_one_of(self.proof.finals, names, "e")
        clean = conj([f"p notin {each}" for each in names])
        ways = split(self.ways(names), names, "p")
        return (f"(ex1 e: {self.shape.behind(last, 'x', 'e')} & {is_one_of([0], names, '0')} & {final} & (all1 p: (e < p => {clean}))"
                f" & (all1 p, q: (q = p+1 & p < e => {ways})))")

    def ways(self, names):
        """Of each state the ways on: by a letter to its target, and by a blank to itself."""
        found = {state: [conj([self.shape.blank("x", "p"), is_one_of([state], names, "q")])] for state in range(self.proof.states)}
        targets = {}
        for (source, letter), target in sorted(self.proof.edges.items(), key=lambda edge: (edge[0][0], edge[1])):
            numbers = self.letters.separators[:-1] if letter is SEPARATOR else [self.letters.number[letter]]
            targets.setdefault((source, target), []).extend(numbers)
        for (source, target), numbers in targets.items():
            found[source].append(conj([self.letters.at(numbers, "x", "p"), is_one_of([target], names, "q")]))
        return {state: disj(ways) for state, ways in found.items()}


class Question:
    """Whether an automaton proves a protocol, as a formula for MONA, in all or part by part."""

    def __init__(self, system, proof, bads=None):
        self.system, self.proof = system, proof
        self.bads = system.bads if bads is None else bads
        self.letters = Letters(system.sections)
        self.shape = Shape(self.letters)
        self.rows, self.rules, self.accepted = Rows(self.shape), Rules(self.shape), Accepted(self.shape, proof)
        self.parts = list(self.made_parts())

    def made_parts(self):
        """The parts in the order in which `verify` tells what is wrong: initial rows, bad rows or stuck configurations, rules."""
        accepted = self.accepted.of("b")
        for number, row in enumerate(self.system.inits, 1):
            yield Part("initial", number, "", row.line, "b", self.implied([self.shape.one_word(), *self.rows.formulas(row)], accepted))
        if self.proof.kind == "deadlock free":
            enabled = disj([self.rules.enabled(rule) for rule in self.system.rules])
            yield Part("stuck", 1, "", 0, "b", self.implied([self.shape.one_word(), accepted], enabled))
        else:
            for number, row in enumerate(self.bads, 1):
                yield Part("bad", number, "", row.line, "b", self.implied([self.shape.one_word(), *self.rows.formulas(row)], f"~{accepted}"))
        for number, rule in enumerate(self.system.rules, 1):
            step = [self.shape.two_words(), *self.rules.step(rule), accepted]
            yield Part("rule", number, rule.name, rule.line, "bc", self.implied(step, self.accepted.of("c")))

    def implied(self, parts, after):
        """All words that have the parts have what comes after. The shape stands first and without parentheses: MONA joins it first."""
        return f"({' & '.join(parts)}) => {after}"

    def whole(self):
        """The file of the whole question: MONA translates what several parts say once."""
        return self.file("the automaton proves the protocol", "bc", "\n& ".join(f"({part.formula})" for part in self.parts) or "true")

    def of_part(self, part):
        return self.file(f"{part.kind} {part.number} {part.name}".rstrip(), part.words, part.formula)

    def file(self, comment, words, formula):
        names = [name for each in zip(*(self.letters.names(word) for word in words)) for name in each]
        accepted = self.accepted.definition()
        lines = [f"# {comment}", "ws1s;", f"var2 {', '.join(names)};", *self.letters.definitions(), *self.rows.definitions, accepted]
        return "".join(map(wrapped, [*lines, *f"{formula};".splitlines()]))
