"""What the pages and the examples of the repository say, as the tests expect it."""

import re
import sys
from pathlib import Path

REPOSITORY = Path(__file__).resolve().parents[3]
EXAMPLES = REPOSITORY / "examples"

sys.path.insert(0, str(REPOSITORY / "stored"))
import stored  # noqa: E402

# Two jobs for `pidtab work`, whose answers depend on the schedule.
JOBS = {"worker0", "worker1"}


def read_page(name: str) -> str:
    """The text of a page of the repository."""
    return (REPOSITORY / name).read_text(encoding="utf-8")


def section(page: str, title: str) -> str:
    """The text below a title, to the next title."""
    _, found, behind = f"\n{page}".partition(f"\n{title}\n")
    if not found:
        raise ValueError(f"no section {title}")
    return re.split(r"\n#+ ", behind)[0]


def rows(text: str) -> list[list[str]]:
    """The cells of a table's rows, without its head."""
    lines = [line for line in text.splitlines() if line.startswith("|")]
    return [[cell.strip() for cell in line.strip("|").split("|")] for line in lines[2:]]


def quoted(cell: str) -> list[str]:
    """What stands between backticks."""
    return re.findall(r"`([^`]*)`", cell)


def named_examples() -> set[str]:
    """The scripts that the page of the examples names, except for those that have no answers of their own."""
    table = rows(read_page("examples/README.md").split("\n## ")[0])
    return {name for row in table for name in quoted(row[0])} - JOBS


def blocks(text: str) -> list[str]:
    """The indented blocks of a text, without their indents."""
    found = re.findall(r"(?:^    .*\n|^\n(?=    ))+", text, re.MULTILINE)
    return [re.sub(r"^    ", "", block, flags=re.MULTILINE).strip("\n") + "\n" for block in found if block.strip()]


def fenced(text: str, kind: str) -> list[str]:
    """The fenced blocks of a kind."""
    return re.findall(rf"^```{kind}\n(.*?)^```$", text, re.MULTILINE | re.DOTALL)


def displays(page: str) -> list[str]:
    """The literal displays of a manual page, with its escapes undone."""
    return [it.replace("\\e", "\\") for it in re.findall(r"^\.Bd -literal.*?\n(.*?)^\.Ed$", page, re.MULTILINE | re.DOTALL)]


def script_lines(path: Path) -> list[str]:
    """The lines of a script or of its answers."""
    return path.read_text(encoding="latin-1").splitlines()


class StoredScript:
    """A script that is stored: its lines, what they are answered, and the list of its table where that is shown."""

    def __init__(self, head: str, lines: list[bytes], answers: list[str]) -> None:
        self.name = head
        self.pid_max = int(head.split(" ")[1])
        self.lines = lines
        asked = len([line for line in lines if line])
        self.answers = answers[:asked]
        self.list_text = "".join(line + "\n" for line in answers[asked:])


def stored_scripts() -> list[StoredScript]:
    """The stored scripts that the gate plays."""
    scripts = stored.read("scripts").split(b"# ")[1:]
    answers = stored.read("answers").decode("latin-1").split("# ")[1:]
    found = []
    for script, answer in zip(scripts, answers, strict=True):
        head, *lines = script.removesuffix(b"\n").split(b"\n")
        found.append(StoredScript(head.decode(), lines, answer.splitlines()[1:]))
    return found
