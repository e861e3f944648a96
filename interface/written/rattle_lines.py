"""The crates: the rows of calls as lines."""

from arguments import arguments_of
from model import call, code, imported, in_lines, is_numbered, named, of
from names import snake
from places import Block, arms, definition, imports
from tables import TableFault

LINES = "crates/pid_script/specs/Lines.antt"
READING = "crates/pid_script/specs/Reading.antt"
WRITER = "crates/pid_script/src/call.rt"
READER = "crates/pid_script/src/line.rt"
STEP = "crates/pid_types/specs/Step.antt"

# What is written of an argument, by its kind, and the least number that is none of it.
WORDS = {"number": "decimal {}", "byte": "decimal {}", "id": "decimal {}", "signed": "signed_decimal {}", "use": "word_of_kind {}"}
FITS = {"number": "{} < 2 ^ 32", "byte": "{} < 2 ^ 8", "id": "{} < 2 ^ 64", "signed": "FitsSigned w32 {}", "which": "FitsWhich {}", "most": "IfSome {} (λ n. n < 2 ^ 32)"}

# The values of a switch, and of a number or none, each with its words.
WAYS = {
    "new": [("false", []), ("true", ['codes "new"'])],
    "on": [("true", ['codes "on"']), ("false", ['codes "off"'])],
    "most": [("(Some limit)", ["decimal limit"]), ("None", ['codes "max"'])],
}

# What reads the word of an argument.
READERS = {"number": "process_of", "byte": "status_read", "id": "control_of", "signed": "signed_of", "which": "which_read", "use": "kind_read", "most": "limit_read", "on": "switch_read"}

# What writes a call whose arguments are of these kinds, after its command or by itself.
BEHIND = {"number": "push_one", "number number": "push_two", "number byte": "push_two", "id": "push_control"}
ITSELF = {"number new": "push_fork", "number which": "push_wait", "number signed signed": "push_set_pgid", "number use number": "push_next", "id most": "push_limit",
          "number id": "push_move", "number on": "push_subreaper"}  # fmt: skip

# The arguments of a call of which a function of its own reads the numbers.
PLAIN = ("number", "id", "number number")

# How long a command is, in words.
LENGTHS = ("one", "two", "three", "four", "five", "six", "seven", "eight", "nine", "ten", "eleven", "twelve", "thirteen", "fourteen", "fifteen", "sixteen")


def kinds_of(row):
    """The kinds of the arguments of a call."""
    return [it.kind for it in arguments_of(row)]


def ways_of(row):
    """The values of the arguments of a call, and their words."""
    told = [("", [])]
    for it, name in named(row):
        ways = WAYS.get(it.kind) or [(name, [WORDS[it.kind].format(name)] if it.kind in WORDS else [])]
        told = [(f"{head} {value}", [*said, *more]) for head, said in told for value, more in ways]
    return told


def words(tables):
    """The words of each call."""
    lines = []
    for row in in_lines(tables):
        end = "words_of_which which" if "which" in kinds_of(row) else "[]"
        lines += [f"words_of ({row.model}{values}) = " + " ∷ ".join([f'codes "{row.call}"', *said, end]) for values, said in ways_of(row)]
    return lines


def fits(tables):
    """Each number of a call is one of its type."""
    lines = []
    for row in in_lines(tables):
        told = [FITS[it.kind].format(name) for it, name in named(row) if it.kind in FITS]
        lines.append(f"Fits {call(row)} = {' × '.join(f'({it})' if len(told) > 1 and it.split(' ')[1] == '<' else it for it in told)}")
    return lines


def of_which(function, plain, numbered):
    """A row for each thing that a wait selects."""
    return lambda tables: [
        f"{function} ({it.model} number) = {numbered.format(it.word)}" if is_numbered(it) else f"{function} {it.model} = {plain.format(it.word)}" for it in of(tables, "which")
    ]


def words_of_uses(tables):
    """The word of each thing that a next looks for."""
    return [f'word_of_kind kind.{it.model} = codes "{it.word}"' for it in of(tables, "use")]


def uses(tables):
    """What reads such a word."""
    return [f"kind_read = named ({' ∷ '.join([*[f'(codes {chr(34)}{it.word}{chr(34)}, kind.{it.model})' for it in of(tables, 'use')], '[]'])})"]


def commands(tables):
    """What reads the words after each command."""
    lines = []
    for row in in_lines(tables):
        kinds = kinds_of(row)
        reads = f"{row.call}_of" if "new" in kinds else " ".join([("one", "two", "three")[len(kinds) - 1], *(READERS[it] for it in kinds), row.model])
        lines.append(f'    {"∷ " if lines else ""}(codes "{row.call}", {reads})')
    return ["commands =", *lines, "    ∷ []"]


def writes(tables):
    """What writes the line of each call."""
    lines = []
    for row in in_lines(tables):
        kinds, passed = " ".join(kinds_of(row)), [f"u32::from({name})" if it.kind == "byte" else name for it, name in named(row)]
        function, first = (BEHIND[kinds], [f'b"{row.call}"']) if kinds in BEHIND else (ITSELF[kinds], [])
        lines.append(f"        {code(row)} => {function}({', '.join(['&mut text', *first, *passed])}),")
    return lines


def reads(row):
    """What reads the words after a command."""
    kinds = " ".join(kinds_of(row))
    if kinds in PLAIN:
        return f"read_{snake(row.model)}(words)"
    return f"{ITSELF.get(kinds, f'read_{row.call}').replace('push', 'read')}(words)"


def by_length(tables):
    """The calls by the length of their commands: each length with its word."""
    found = {}
    for row in in_lines(tables):
        found.setdefault(len(row.call), []).append(row)
    if max(found) > len(LENGTHS):
        raise TableFault(f"interface/calls.tbl: a call has {max(found)} letters, and {len(LENGTHS)} are the most")
    return [(length, LENGTHS[length - 1], found[length]) for length in sorted(found)]


def readers(tables):
    """The functions that read the commands, each those of one length."""
    lines = []
    for length, word, rows in by_length(tables):
        lines += [
            f"/// The call of a command of {word} letters and the words behind it.", "#[tactic(auto, unfolding(crate::specs::Reading::command_of))]",
            f"fn read_{word}_letters(command: &[u8], words: &[u8]) -> Option<Call>",
            f"    ensures {{ length command.now ≡ {length} → result ≡ command_of command.now words.now }}", "{", "    match command {",
            *[f'        b"{it.call}" => {reads(it)},' for it in rows], "        _ => None,", "    }", "}", "",
        ]  # fmt: skip
    return lines


def reads_by_length(tables):
    """What reads a command, by its length."""
    return [*[f"        {length} => read_{word}_letters(command, words)," for length, word, _ in by_length(tables)], "        _ => None,"]


def answers_of(word, rows):
    """The proof of a function that reads commands: each has its row of the table of commands."""
    lines = [
        "use Rattle.std.proofs.Common.{codes, arith}", "use Rattle.std.proofs.lemmas.Slice.Eq.{text_from_reads}",
        f"use Rattle.pid_script.proofs.Commands.{{{', '.join(f'row_{it.call}' for it in rows)}}}", f"use Rattle.pid_script.proofs.line.read_{word}_letters.Goals as goal",
    ]  # fmt: skip
    for it in rows:
        word, reader = it.call, reads(it).partition("(")[0]
        lines += ["", f"pub returns-in-{word} : goal.returns-in-{word}",
                  f'returns-in-{word} c = λ _. rw (text_from_reads c.args.command.now (codes "{word}") (omega arith) assumption, row_{word}) c.{reader}.ensures']  # fmt: skip
    return lines


def files_of(tables):
    """The proofs of these functions, by their paths."""
    return {f"crates/pid_script/proofs/line/read_{word}_letters/Answers.antt": answers_of(word, rows) for _, word, rows in by_length(tables)}


def all_calls(tables):
    """The import of all calls."""
    return [imported("pid_types.specs.declared.call.Call", [it.model for it in tables["calls"]])]


ROWS = {
    **{(path, "imports of Call"): (imports("Call"), all_calls) for path in (STEP, LINES, READING)},
    (LINES, "word_of_kind"): (definition("word_of_kind"), words_of_uses),
    (LINES, "words_of_which"): (definition("words_of_which"), of_which("words_of_which", 'codes "{}" ∷ []', 'codes "{}" ∷ decimal number ∷ []')),
    (LINES, "words_of"): (definition("words_of"), words),
    (LINES, "FitsWhich"): (definition("FitsWhich"), of_which("FitsWhich", "Unit {{0}}", "number < 2 ^ 32")),
    (LINES, "Fits"): (definition("Fits"), fits),
    (READING, "kind_read"): (definition("kind_read"), uses),
    (READING, "commands"): (definition("commands"), commands),
    (WRITER, "line_text"): (arms("line_text("), writes),
    (READER, "read_letters"): (Block(r"/// The call of a command of \w+ letters and the words behind it\.", r"/// The call of a command and the words behind it\..*"), readers),
    (READER, "read_command"): (arms("read_command("), reads_by_length),
}
