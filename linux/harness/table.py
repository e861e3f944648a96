"""The table's answers: the program pidtab, driven through a pipe."""

import subprocess
from pathlib import Path

from pidtab.faults import ProgramFault


class Table:
    """One run of `pidtab run`, which answers line by line."""

    def __init__(self, program: Path, pid_max: int) -> None:
        words = [str(program), "run", "--pid-max", str(pid_max)]
        self.program = program
        self.process = subprocess.Popen(words, stdin=subprocess.PIPE, stdout=subprocess.PIPE)

    def answer(self, line: bytes) -> str:
        """The answer to a line that is not empty."""
        assert self.process.stdin and self.process.stdout
        try:
            self.process.stdin.write(line + b"\n")
            self.process.stdin.flush()
        except BrokenPipeError as fault:
            raise ProgramFault(f"{self.program} reads no more") from fault
        answer = self.process.stdout.readline()
        if not answer.endswith(b"\n"):
            raise ProgramFault(f"{self.program} does not answer `{line.decode('latin-1')}`")
        return answer[:-1].decode("latin-1")

    def close(self) -> None:
        """Ends the program."""
        assert self.process.stdin and self.process.stdout
        try:
            self.process.stdin.close()
        except BrokenPipeError:
            pass
        self.process.stdout.close()
        self.process.wait()

    def __enter__(self) -> "Table":
        return self

    def __exit__(self, *fault: object) -> None:
        self.close()


def list_lines(program: Path, pid_max: int, script: bytes) -> list[str]:
    """The lines of `pidtab list` for a script."""
    words = [str(program), "list", "--pid-max", str(pid_max)]
    done = subprocess.run(words, input=script, stdout=subprocess.PIPE, check=False)
    if done.returncode != 0:
        raise ProgramFault(f"{program} list ends with status {done.returncode}")
    return done.stdout.decode("latin-1").splitlines()
