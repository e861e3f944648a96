"""Random scripts with lines of every form of the language, whose numbers are mostly those of tasks and control groups that may be there."""

import random
import sys
from pathlib import Path

sys.path.insert(0, str(Path(__file__).resolve().parents[2] / "bindings/python"))

from pidtab.language import FORMS  # noqa: E402

LINES = 500
# How much more often a form is taken, by its command and the profile; each other one counts 1.
PROFILES = {
    "uniform": {},
    "exhaust": {"fork": 60},
    "deep": {"fork C new": 30, "fork": 4, "exit": 3},
    "groups": {"fork": 15, "setpgid": 15, "setsid": 6, "getpgid": 4, "wait": 4, "exit": 4},
    "controls": {"fork": 12, "mk": 12, "move": 12, "limit": 8, "rm": 4, "count": 4, "exit": 3},
    "reapers": {"fork": 12, "exit": 10, "wait": 8, "subreaper": 4, "join": 3},
    "syntax": {"fork": 4},
}
BAD_LINES = ("", "fork", "fork 01", "fork 1  new", "FORK 1", "exit 1 256", "getpid 4294967296", "mk -1", "wait 1 all", "x" * 201, "fork\t1", "mk 0 ")


class Writer:
    """Writes one script: it counts the forks and the stamps, from which it guesses numbers and ids."""

    def __init__(self, seed: int) -> None:
        self.dice = random.Random(seed)
        self.profile = list(PROFILES)[seed % len(PROFILES)]
        self.pid_max = 301 if self.profile == "exhaust" else self.dice.choice((301, 400, 32768, 4194304))
        self.stamp, self.tasks = 0, 1
        self.controls = [0]
        weights = PROFILES[self.profile]
        self.weights = [weights.get(form, weights.get(form.split(" ")[0], 1)) for form in FORMS]

    def number(self, kind: str) -> int:
        """A number of a kind of `pidtab.language`."""
        dice = self.dice
        if dice.random() < 0.02:
            return dice.choice((0, 255, 4194304, 2**31 - 1))if kind != "S" else 255
        if kind == "S":
            return dice.randrange(256)
        if kind == "I":
            return dice.choice(self.controls)
        if kind == "N":
            return dice.randrange(20)
        if kind == "G":
            return dice.randrange(-1, self.tasks + 2)
        return dice.randrange(max(0, self.tasks - 30), self.tasks + 2) if dice.random() < 0.6 else dice.randrange(1, 6)

    def line(self) -> str:
        """The next line."""
        if self.profile == "syntax" and self.dice.random() < 0.5:
            return self.dice.choice(BAD_LINES)
        (form,) = self.dice.choices(FORMS, self.weights)
        self.stamp += 1
        self.tasks += form.startswith("fork")
        if form.startswith("mk"):
            self.controls.append(self.stamp)
        return " ".join(str(self.number(word)) if word.isupper() else word for word in form.split(" "))

    def script(self) -> str:
        return "".join(f"{self.line()}\n" for _ in range(LINES))


def script_of(seed: int) -> tuple[int, str]:
    """The bound and the lines of the script of a seed."""
    writer = Writer(seed)
    return writer.pid_max, writer.script()
