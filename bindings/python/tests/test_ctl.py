"""One command for the program and what stands beside it: its words, its files, and what completes them."""

import json
import os
import re
import shutil
import subprocess
import sys
import tempfile
import unittest
from pathlib import Path

from pidtab import __version__
from pidtab.commands.pidtabctl import COMMANDS
from tests.pages import REPOSITORY, displays, read_page
from tests.ways import need_library, need_program

BIN = REPOSITORY / "bindings" / "python" / "bin"
LAUNCHER = BIN / "pidtabctl"

BESIDE = ("check", "tree", "play", "top", "replay", "compare", "keep")
ALL = {"run", "list", "work", "conform", "diff", "whatif", "completion", "help", *BESIDE}

# The first example of docs/SCRIPT.md, and its list.
SCRIPT = b"fork 1 new\nfork 2\nnspid 1 3\ngetppid 2\n"
ANSWERS = b"child 2 root 2\nchild 2 root 3\n3 2\n0\n"
LIST = b"""\
task 1 space 0 parent 0 group 1 session 1 control 0 live
task 2,1 space 1 parent 1 group 1 session 1 control 0 live
task 3,2 space 1 parent 2 group 1 session 1 control 0 live
space 0 parent - cursor 4
space 1 parent 0 cursor 3
control 0 parent - limit max count 3
"""

# The example of docs/SCRIPT.md for workers.
WORKED = b"""\
worker 0
0 child 2 root 2
refused 0
worker 1
refused 0
task 1 space 0 parent 0 group 1 session 1 control 0 live
task 2 space 0 parent 1 group 1 session 1 control 0 live
space 0 parent - cursor 3
control 0 parent - limit max count 2
"""


def launch(*words: str | Path, script: bytes = b"", program: Path = LAUNCHER, **variables: str) -> "subprocess.CompletedProcess[bytes]":
    """Runs the command."""
    command = [sys.executable, str(program), *map(str, words)]
    return subprocess.run(command, input=script, capture_output=True, check=False, env={**os.environ, **variables})


class Files(unittest.TestCase):
    """Scripts in a folder of their own."""

    def setUp(self) -> None:
        folder = tempfile.TemporaryDirectory()
        self.addCleanup(folder.cleanup)
        self.folder = Path(folder.name)

    def write(self, name: str, script: bytes) -> Path:
        """A file with this script."""
        path = self.folder / name
        path.write_bytes(script)
        return path


class Words(Files):
    """Each command is there by its name, and a wrong one is named."""

    def test_all_commands(self) -> None:
        self.assertEqual(set(COMMANDS), ALL)
        done = launch("--help")
        self.assertEqual((done.returncode, done.stderr), (0, b""))
        self.assertEqual(set(re.findall(r"^  ([a-z]+) ", done.stdout.decode(), re.MULTILINE)), ALL)
        for words in (("help",), ("-h",), ("help", "--help")):
            self.assertEqual(launch(*words).stdout, done.stdout)

    def test_the_help_of_each(self) -> None:
        for word in sorted(ALL - {"help"}):
            with self.subTest(word):
                done = launch(word, "--help")
                self.assertEqual((done.returncode, done.stderr), (0, b""))
                self.assertTrue(done.stdout.startswith(f"usage: pidtabctl {word} [-h]".encode()), done.stdout)
                self.assertEqual(launch("help", word).stdout, done.stdout)

    def test_a_wrong_command(self) -> None:
        said = {
            "chekc": 'no command "chekc": did you mean check?',
            "diffs": 'no command "diffs": did you mean diff?',
            "--verison": 'no command "--verison": did you mean --version?',
            "zzz": f'no command "zzz": the commands are {", ".join(COMMANDS)}',
            "": 'no command "": the commands are ' + ", ".join(COMMANDS),
        }
        for word, sentence in said.items():
            for words in ((word,), ("help", word)):
                done = launch(*words)
                self.assertEqual((done.returncode, done.stdout, done.stderr.decode()), (2, b"", f"pidtabctl: {sentence}\n"))

    def test_no_command(self) -> None:
        done = launch()
        self.assertEqual((done.returncode, done.stdout), (2, b""))
        self.assertIn(b"usage: pidtabctl COMMAND", done.stderr)
        self.assertEqual(launch("help", "run", "list").returncode, 2)

    def test_the_version(self) -> None:
        program = self.write("pidtab", b"#!/bin/sh\n")
        program.chmod(0o755)
        done = launch("--version", PIDTAB=str(program))
        # The numbers are those of docs/STABLE.md.
        interface, model = re.findall(r"^- The \*(?:interface|model)\* is (\d+)\.", read_page("docs/STABLE.md"), re.MULTILINE)
        self.assertEqual(done.stdout.decode(), f"pidtabctl {__version__} (interface {interface}, model {model})\nprogram {program}\n")
        done = launch("--version", PIDTAB="/no/such/pidtab")
        self.assertEqual(done.returncode, 0)
        self.assertIn(b"no program /no/such/pidtab", done.stdout)

    def test_the_names_of_their_own_stay(self) -> None:
        for word in BESIDE:
            with self.subTest(word):
                done = launch("--help", program=BIN / f"pidtab-{word}")
                self.assertTrue(done.stdout.startswith(f"usage: pidtab-{word} [-h]".encode()), done.stdout)
                begun = done.stdout.decode().replace(f"pidtab-{word}", "X").split()
                self.assertEqual(begun, launch(word, "--help").stdout.decode().replace(f"pidtabctl {word}", "X").split())

    def test_the_same_judgement(self) -> None:
        script = b"frok 1\nexit 2 256\n"
        done = launch("check", script=script)
        self.assertEqual((done.returncode, done.stdout), (1, b"-:1:1: expected a command: the nearest is `fork`\n-:2:8: expected a status, 0 to 255\n"))
        self.assertEqual(launch(script=script, program=BIN / "pidtab-check").stdout, done.stdout)
        self.assertIn(b"pidtabctl check: cannot read /no/such/script", launch("check", "/no/such/script").stderr)

    def test_a_difference(self) -> None:
        before = self.write("before", LIST)
        ended = b"parent 2 group 1 session 1 control 0 "
        now = self.write("now", LIST.replace(ended + b"live", ended + b"exit 7"))
        done = launch("diff", before, now)
        self.assertEqual((done.returncode, done.stdout.decode()), (0, "~ task 3: state live -> exited, status null -> 7\n"))
        self.assertEqual(launch("--diff", before, now, program=BIN / "pidtab-tree").stdout, done.stdout)
        self.assertEqual(len(json.loads(launch("diff", "--json", before, now).stdout)["changed"]), 1)


class Played(Files):
    """`run`, `list` and `work` start the program."""

    def setUp(self) -> None:
        need_program()
        super().setUp()

    def test_standard_input(self) -> None:
        for words in ((), ("-",)):
            self.assertEqual(launch("run", *words, script=SCRIPT).stdout, ANSWERS)
            self.assertEqual(launch("list", *words, script=SCRIPT).stdout, LIST)

    def test_files_are_one_script(self) -> None:
        # The first has no end of its last line.
        first, rest = self.write("first", b"fork 1 new"), self.write("rest", b"fork 2\nnspid 1 3\ngetppid 2\n")
        for flags in ((), ("--strict",)):
            done = launch("run", *flags, first, rest)
            self.assertEqual((done.returncode, done.stdout, done.stderr), (0, ANSWERS, b""))
            self.assertEqual(launch("list", *flags, first, "-", script=rest.read_bytes()).stdout, LIST)

    def test_it_is_driven_through_a_pipe(self) -> None:
        with subprocess.Popen([sys.executable, LAUNCHER, "run"], stdin=subprocess.PIPE, stdout=subprocess.PIPE, bufsize=0) as child:
            assert child.stdin and child.stdout
            for line, answer in zip(SCRIPT.splitlines(keepends=True), ANSWERS.splitlines(keepends=True), strict=True):
                child.stdin.write(line)
                self.assertEqual(child.stdout.read(len(answer)), answer)
            child.stdin.close()
            self.assertEqual(child.wait(), 0)

    def test_pid_max(self) -> None:
        # The greatest number is 300, and 1 is taken: 299 forks find one.
        script = self.write("forks", b"fork 1\n" * 300)
        for words in ((script,), ("--strict", script)):
            answers = launch("run", "--pid-max", "301", *words).stdout.splitlines()
            self.assertEqual(answers[-2:], [b"child 300 root 300", b"EAGAIN no-number 0"])
        for bound in ("300", "4194305", "many"):
            done = launch("run", "--pid-max", bound)
            self.assertEqual((done.returncode, done.stdout), (2, b""))
            self.assertIn(f"a number from 301 to 4194304, not {bound}".encode(), done.stderr)

    def test_strict(self) -> None:
        good, bad = self.write("good", b"fork 1 new\n\n"), self.write("bad", b"fork 2\nfrok 1\nfork 1\nexit 2 256\n")
        said = f"{bad}:2:1: expected a command: the nearest is `fork`\n".encode()
        done = launch("run", "--strict", good, bad)
        self.assertEqual((done.returncode, done.stdout, done.stderr), (1, ANSWERS[:30], said))
        for flags in (("--strict",), ("--strict", "--json")):
            done = launch("list", *flags, good, bad)
            self.assertEqual((done.returncode, done.stdout, done.stderr), (1, b"", said))
        # Without it a bad line is answered, and no list speaks of it.
        done = launch("list", good, bad)
        self.assertEqual((done.returncode, done.stderr), (0, b""))

    def test_a_list_as_json(self) -> None:
        table = json.loads(launch("list", "--json", script=SCRIPT).stdout)
        self.assertEqual([task["numbers"] for task in table["tasks"]], [[1], [2, 1], [3, 2]])
        self.assertEqual(table["controls"], [{"id": 0, "parent": None, "limit": None, "count": 3}])

    def test_workers(self) -> None:
        first, empty = self.write("first", b"fork 1\n"), self.write("empty", b"")
        self.assertEqual(launch("work", "--pid-max", "301", first, empty).stdout, WORKED)
        bad = self.write("bad", b"fork 1\nfrok\n")
        done = launch("work", first, bad)
        self.assertEqual((done.returncode, done.stderr), (1, f"pidtab: {bad}: line 2: bad line\n".encode()))
        for files in ([first], [first] * 17):
            self.assertIn(f"2 to 16 files, one for each worker, not {len(files)}".encode(), launch("work", *files).stderr)

    def test_what_cannot_be_read(self) -> None:
        good = self.write("good", b"fork 1\n")
        for missing, why in (("/no/such/script", "No such file or directory"), (self.folder, "Is a directory")):
            for command in ("run", "list"):
                done = launch(command, good, missing)
                self.assertEqual((done.returncode, done.stdout), (2, b""))
                self.assertEqual(done.stderr.decode(), f"pidtabctl {command}: cannot read {missing}: {why}\n")

    def test_a_program_that_ends_early(self) -> None:
        # It reads nothing, so the script finds no reader.
        program = self.write("pidtab", b"#!/bin/sh\nexec < /dev/null\nexit 9\n")
        program.chmod(0o755)
        self.assertEqual(launch("run", self.write("long", b"fork 1\n" * 100_000), PIDTAB=str(program)).returncode, 9)
        program.write_bytes(b"#!/bin/sh\nkill -TERM $$\n")
        self.assertEqual(launch("run", self.write("long", b"fork 1\n"), PIDTAB=str(program)).returncode, 128 + 15)
        done = launch("run", PIDTAB="/no/such/pidtab")
        self.assertEqual((done.returncode, done.stdout), (2, b""))
        self.assertIn(b"pidtabctl run: no program /no/such/pidtab", done.stderr)


class Completion(Files):
    """What a shell completes, where that shell is there."""

    def ask(self, shell: str, code: str) -> list[str]:
        """What a shell writes that has read the completion."""
        if shutil.which(shell) is None:
            self.skipTest(f"no {shell}")
        done = launch("completion", shell)
        self.assertEqual((done.returncode, done.stderr), (0, b""))
        place = self.write(f"completion.{shell}", done.stdout)
        flags = {"bash": ["--norc"], "zsh": ["-f"], "fish": ["--no-config"]}[shell]
        home = {**os.environ, "HOME": str(self.folder)}
        asked = subprocess.run([shell, *flags, "-c", code.format(file=place)], capture_output=True, text=True, check=False, env=home)
        self.assertEqual(asked.stderr, "")
        return asked.stdout.splitlines()

    def test_bash(self) -> None:
        def complete(*words: str) -> list[str]:
            line = " ".join(f"'{word}'" for word in ("pidtabctl", *words))
            return self.ask("bash", f'. {{file}}; COMP_WORDS=({line}); COMP_CWORD={len(words)}; _pidtabctl; printf "%s\\n" "${{{{COMPREPLY[@]}}}}"')

        self.assertEqual(complete("co"), ["compare", "conform", "completion"])
        self.assertEqual(set(complete("")), ALL | {"--help", "--version"})
        self.assertEqual(set(complete("help", "")), ALL)
        self.assertEqual(complete("completion", "b"), ["bash"])
        # Files are completed by the shell.
        self.assertEqual(complete("check", ""), [""])

    def test_zsh(self) -> None:
        def complete(*words: str) -> list[str]:
            line = " ".join(f"'{word}'" for word in ("pidtabctl", *words))
            told = 'compdef() {{ :; }}; _describe() {{ print -rl -- "${{(@P)2}}"; }}; _files() {{ print files; }}'
            return self.ask("zsh", f"{told}; . {{file}}; words=({line}); CURRENT={len(words) + 1}; _pidtabctl")

        self.assertEqual({line.partition(":")[0] for line in complete("")}, ALL)
        self.assertIn("check:says which lines of scripts are bad, and why", complete("help", ""))
        self.assertEqual(complete("completion", ""), ["bash", "zsh", "fish"])
        self.assertEqual(complete("check", ""), ["files"])

    def test_fish(self) -> None:
        def complete(line: str) -> set[str]:
            return {it.partition("\t")[0] for it in self.ask("fish", f"cd {self.folder}; source {{file}}; complete -C '{line}'")}

        self.assertEqual(complete("pidtabctl co"), {"compare", "conform", "completion"})
        self.assertEqual(complete("pidtabctl "), ALL)
        self.assertEqual(complete("pidtabctl help "), ALL)
        self.assertEqual(complete("pidtabctl completion "), {"bash", "zsh", "fish"})
        self.assertEqual(complete("pidtabctl check "), {"completion.fish"})

    def test_another_shell(self) -> None:
        self.assertEqual(launch("completion", "ksh").returncode, 2)


class Manual(unittest.TestCase):
    """The manual page."""

    def test_each_command(self) -> None:
        page = (REPOSITORY / "man" / "pidtabctl.1").read_text(encoding="utf-8")
        self.assertEqual(set(re.findall(r"^\.It Cm ([a-z]+)", page, re.MULTILINE)), ALL)

    def test_its_examples(self) -> None:
        need_program()
        need_library()
        examples = displays((REPOSITORY / "man" / "pidtabctl.1").read_text(encoding="utf-8"))
        self.assertEqual(len(examples), 3)
        for example in examples:
            command, *printed = example.splitlines()
            code = f"pidtabctl() {{ '{sys.executable}' '{LAUNCHER}' \"$@\"; }}; {command.removeprefix('$ ')}"
            done = subprocess.run(["sh", "-c", code], stdout=subprocess.PIPE, stderr=subprocess.STDOUT, text=True, check=False)
            self.assertEqual(done.stdout.splitlines(), printed)


if __name__ == "__main__":
    unittest.main()
