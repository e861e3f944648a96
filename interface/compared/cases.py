"""That interface/cases meets each call, question, refusal and fault, and each form of a line."""

import re

from questions import REPLY
from written.lines import all_forms

FOLDER = "interface/cases"
PATHS = ()


def pattern(form):
    """Lines of a form."""
    return re.compile(" ".join(r"-?\d+" if word.isupper() else word for word in form.split(" ")) + "$")


def differences(tables, top):
    """What is not met, as sentences."""
    steps = [line for path in sorted((top / FOLDER).glob("*.cases")) for line in path.read_text(encoding="utf-8").splitlines() if " -> " in line]
    answers = [line.rpartition(" -> ")[2] for line in steps]
    made = {line.split(" ")[0] for line in steps}
    numbered = [line.partition(" -> ")[2] for line in steps if line.startswith("numbers ")]
    faults = [f"{FOLDER}: no step is a {it.call}" for it in tables["calls"] if it.call not in made]
    faults += [f"{FOLDER}: no step asks {it.question}" for it in tables["questions"] if it.tells != REPLY and it.question not in made]
    faults += [f"{FOLDER}: no step is refused as {it.error} {it.word}" for it in tables["refusals"]
               if not any(re.fullmatch(rf"{it.error} {it.word}(?: \d+)?", answer) for answer in answers)]  # fmt: skip
    faults += [f"{FOLDER}: no text has the fault `{it.words}`" for it in tables["faults"]
               if it.of != "none" and not any(answer.endswith(f": {it.words}") for answer in answers)]  # fmt: skip
    return faults + [f"{FOLDER}: no step has the numbers of `{form}`" for form in all_forms(tables) if not any(map(pattern(form).match, numbered))]
