"""What checks of pages know of the crates (tests/definitions-page, tests/public-calls, tests/crate-picture): their parts, and what each hands out
by its root file."""
import pathlib
import re

TOP = pathlib.Path(__file__).resolve().parent.parent
CRATES = TOP / "crates"
NAME = re.compile(r"[A-Za-z_][\w-]*")
# The crates of each part, from below.
PARTS = {
    "Words and automata": """sequence word_automata bit_set exploration reduction atoms bit_subsets determinise minimise
        boolean_operations transducers image_preimage""",
    "Systems": """protocol_model protocol_moves protocol_steps memory_moves array_moves step_compiler section_patterns protocol_problem deadlock_query
        certificate_checker""",
    "The search": """safety_problem abstraction predicate_abstraction future_abstraction past_abstraction search_history fixpoint trace_replay
        refinement backward_search protocol_search property_batch search_report""",
    "Texts": """protocol_lexer forms protocol_syntax protocol_layout protocol_properties configuration_words lines certificate certificate_writing
        chain_protocol""",
    "Outside and commands": "armc_io command_words command_replies armc_commands armc tests",
}


def exported(crate):
    """The names that the crate's root file hands out."""
    text = (CRATES / crate / "src" / "lib.rt").read_text()
    names = set(re.findall(r"^pub (?:fn|struct|enum|trait) (\w+)", text, re.M))
    for used in re.findall(r"^pub use [\w:]+::(\w+|\{[^}]*\});", text, re.M):
        names.update(NAME.findall(used))
    return names


BLOCK = re.compile(r"(?:impl(?:<.*?>)? (?:[\w:]+(?:<.*>)? for )?|pub (trait) )(\w+)")
FUNCTION = re.compile(r"(    )?(pub )?(?:pub |const |final )*fn (\w+)")


def functions(path, names):
    """Of each function of a source with one of these names, and each method of such a type or trait: its name, its type or trait, whether it can be
    called from outside, its signature, and the lines of its clauses."""
    lines, owner, trait = path.read_text().splitlines(), None, None
    for at, line in enumerate(lines):
        if block := BLOCK.match(line):
            trait, owner = block.groups()
        found = FUNCTION.match(line)
        if not found or not (owner in names if found[1] else found[2] and found[3] in names):
            continue
        indent, told = found[1] or "", []
        for later in lines[at + 1:]:
            if later in (indent + "{", indent + "}", indent + "{}") or later.startswith(indent + "fn "):
                break
            told.append(later)
        first = next((k for k, later in enumerate(told) if later.lstrip().startswith(("requires", "ensures"))), len(told))
        yield found[3], owner if found[1] else None, bool(found[2] or trait), " ".join(each.strip() for each in [line, *told[:first]]), told
