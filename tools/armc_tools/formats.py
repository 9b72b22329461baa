"""Automata and the transducers of rules in the formats of OpenFst, Mata and Graphviz, with a table of the letters' numbers.

An automaton has its start, its edges as tuples of a state, one letter (or a letter read and one written), and a state, and its final states.
Letters are numbered from 1; 0 is no letter, and stands where a transducer reads or writes none.
"""
import collections
import importlib.machinery
import importlib.util
import os

from .program import TOOLS
from .texts import SEPARATOR

Graph = collections.namedtuple("Graph", "name start edges finals")
# Mata has a number of its own for no letter.
NO_LETTER, MATA_NO_LETTER = 0, 4294967295


def numbered(system):
    """The numbers of the letters, in the protocol's order, the separator last."""
    found = {(k, letter): 0 for k, section in enumerate(system.sections) for letter in section.letters}
    return {letter: at for at, letter in enumerate([*found, SEPARATOR], 1)}


def symbols(system, numbers):
    """The table of letters in the layout of OpenFst: a name and a number a line."""
    return "".join(f"{name}\t{number}\n" for name, number in [("<eps>", NO_LETTER), *((letter_name(system, letter), number) for letter, number in numbers.items())])


def letter_name(system, letter):
    return "|" if letter is SEPARATOR else f"{system.sections[letter[0]].name}.{letter[1]}"


def of_proof(proof, numbers):
    """The automaton of a proof."""
    edges = sorted((source, numbers[letter], target) for (source, letter), target in proof.edges.items())
    return Graph("proof", 0 if proof.states else None, edges, sorted(proof.finals))


def of_rules(text):
    """The transducers of the rules, which are the machines that armc-second-opinion makes of them. Their letters count from 0, the separator last."""
    loader = importlib.machinery.SourceFileLoader("second_opinion", os.path.join(TOOLS, "armc-second-opinion"))
    second = importlib.util.module_from_spec(importlib.util.spec_from_loader("second_opinion", loader))
    loader.exec_module(second)
    for name, machine in second.Reader(text).protocol().rules.items():
        yield of_machine(f"rule-{name}", machine)


def of_machine(name, machine):
    """A machine with its states numbered as they are met."""
    order, at, edges = {machine.start: 0}, 0, []
    while at < len(order):
        state = list(order)[at]
        for read, written, target in machine.edges.get(state, ()):
            order.setdefault(target, len(order))
            edges.append((at, *(NO_LETTER if letter is None else letter + 1 for letter in (read, written)), order[target]))
        at += 1
    return Graph(name, 0, sorted(edges), [order[machine.end]] if machine.end in order else [])


def openfst(graph, names):
    """The text that fstcompile takes, with the table of letters for its symbols. The first line is about the start; one that leads nowhere has no end."""
    lines = [(edge[0], "\t".join([str(edge[0]), str(edge[-1]), *(names[letter] for letter in edge[1:-1])])) for edge in graph.edges]
    lines += [(state, str(state)) for state in graph.finals]
    if graph.start is not None and graph.start not in [state for state, _ in lines]:
        lines.append((graph.start, f"{graph.start}\tInfinity"))
    return "".join(f"{line}\n" for _, line in sorted(lines, key=lambda line: line[0] != graph.start))


def mata(graph, names):
    """The text of Mata with numbers as letters; a transducer has a state between the letter that it reads and the one that it writes."""
    two = any(len(edge) == 4 for edge in graph.edges)
    edges, levels = (between(graph) if two else ([(source, letter, target) for source, letter, target in graph.edges], {}))
    lines = ["@NFT-explicit" if two else "@NFA-explicit", "%Alphabet-auto", f"%Initial{'' if graph.start is None else f' q{graph.start}'}"]
    lines += [f"%Final{''.join(f' q{state}' for state in graph.finals)}"]
    lines += [f"%Levels {' '.join(f'q{state}:{level}' for state, level in levels.items())}", "%LevelsNum 2"] if two else []
    lines += [f"# {number} is {name}" for number, name in names.items() if number != NO_LETTER]
    return "".join(f"{line}\n" for line in [*lines, *(f"q{source} {letter} q{target}" for source, letter, target in edges)])


def between(graph):
    """The edges of a transducer as two each, with a state of level 1 between them."""
    states = {state for edge in graph.edges for state in (edge[0], edge[3])} | {graph.start, *graph.finals}
    levels, edges = dict.fromkeys(sorted(states), 0), []
    for source, read, written, target in graph.edges:
        middle = len(levels)
        levels[middle] = 1
        edges += [(source, read or MATA_NO_LETTER, middle), (middle, written or MATA_NO_LETTER, target)]
    return edges, levels


def dot(graph, names):
    """The text of Graphviz: one arrow for each two states, with all letters between them."""
    labels = {}
    for source, *letters, target in graph.edges:
        labels.setdefault((source, target), []).append(" / ".join(names[letter].replace("<eps>", "-") for letter in letters))
    lines = [f'digraph "{graph.name}" {{', "  rankdir=LR;", "  node [shape=circle];"]
    lines += [f"  {state} [shape=doublecircle];" for state in graph.finals]
    lines += ['  start [shape=none, label=""];', f"  start -> {graph.start};"] if graph.start is not None else []
    lines += ['  %s -> %s [label="%s"];' % (source, target, "\\n".join(found)) for (source, target), found in labels.items()]
    return "".join(f"{line}\n" for line in [*lines, "}"])


WRITERS = {"openfst": (openfst, "fst.txt"), "mata": (mata, "mata"), "dot": (dot, "dot")}


def written(to, graph, system, numbers):
    """The graph in one of the formats."""
    names = {NO_LETTER: "<eps>", **{number: letter_name(system, letter) for letter, number in numbers.items()}}
    return WRITERS[to][0](graph, names)
