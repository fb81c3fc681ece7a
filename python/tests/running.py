"""The command run in this process, and tests that have files."""

import unittest
from contextlib import redirect_stderr, redirect_stdout
from dataclasses import dataclass
from io import StringIO
from pathlib import Path
from tempfile import TemporaryDirectory

from jinxbanyan.command import main


@dataclass(frozen=True)
class Ran:
    """The exit status of a command and what it printed."""

    status: int
    out: str
    err: str


def run(*arguments: object) -> Ran:
    """Runs the command with arguments."""
    out, err = StringIO(), StringIO()
    with redirect_stdout(out), redirect_stderr(err):
        try:
            status = main([str(argument) for argument in arguments])
        except SystemExit as left:
            status = int(left.code or 0)
    return Ran(status, out.getvalue(), err.getvalue())


class FilesCase(unittest.TestCase):
    """A test with a directory of its own."""

    def setUp(self) -> None:
        directory = TemporaryDirectory()
        self.addCleanup(directory.cleanup)
        self.here = Path(directory.name)

    def text(self, text: str, name: str) -> Path:
        """A file that holds a text."""
        (self.here / name).write_text(text, encoding="utf-8")
        return self.here / name

    def assert_fails(self, ran: Ran, status: int, *words: str) -> None:
        """The command failed with a status and one line that has the words."""
        self.assertEqual((ran.status, ran.out), (status, ""))
        self.assertRegex(ran.err, r"\Ajinxbanyan[^\n]*\n\Z")
        for word in words:
            self.assertIn(word, ran.err)
