"""A small repository for the tests of a tool: files that a test writes, and a copy of the tool."""

import shutil
import subprocess
import sys
import tempfile
import unittest
from pathlib import Path

from tests.pages import REPOSITORY


class SmallRepository(unittest.TestCase):
    """Each test has a repository of its own, with these files and this tool."""

    TOOL = ""
    FILES: "dict[str, str]" = {}

    def setUp(self):
        self.top = Path(tempfile.mkdtemp())
        self.addCleanup(shutil.rmtree, self.top)
        for path, text in self.FILES.items():
            self.write(path, text)
        (self.top / "tools").mkdir()
        shutil.copy(REPOSITORY / "tools" / self.TOOL, self.top / "tools" / self.TOOL)

    def write(self, path, text):
        """Writes a file of the repository."""
        (self.top / path).parent.mkdir(parents=True, exist_ok=True)
        (self.top / path).write_text(text, encoding="utf-8")

    def run_tool(self, *words):
        """The status of the tool, and what it says."""
        done = subprocess.run([sys.executable, self.top / "tools" / self.TOOL, *words], capture_output=True, text=True, check=False)
        return done.returncode, done.stdout + done.stderr
