"""Progress on standard error: told of what takes long, and of nothing else."""

import unittest
from collections.abc import Callable
from contextlib import redirect_stderr
from io import StringIO
from threading import Event
from unittest.mock import patch

from jinxbanyan import progress


def said(work: Callable[[], object]) -> str:
    """What some work says on standard error."""
    with redirect_stderr(StringIO()) as err:
        work()
    return err.getvalue()


class Progress(unittest.TestCase):
    def test_a_stage_is_named_once_where_it_takes_long(self) -> None:
        def long() -> None:
            told = Event()
            say = progress.say

            def tell(text: str) -> None:
                say(text)
                told.set()

            with patch.object(progress, "PATIENCE", 0.01), patch.object(progress, "say", tell):
                with progress.stage("reading"):
                    self.assertTrue(told.wait(10))
                    told.clear()
                    self.assertFalse(told.wait(0.1), "named again")

        self.assertEqual(said(long), "jinxbanyan: reading\n")

    def test_a_short_stage_is_not_named(self) -> None:
        def short() -> None:
            with patch.object(progress, "PATIENCE", 0.5):
                with progress.stage("reading"):
                    pass
                Event().wait(0.7)

        self.assertEqual(said(short), "")

    def test_a_stage_that_fails_is_not_named_later(self) -> None:
        def failing() -> None:
            with patch.object(progress, "PATIENCE", 0.5):
                with self.assertRaises(KeyError), progress.stage("reading"):
                    raise KeyError
                Event().wait(0.7)

        self.assertEqual(said(failing), "")

    def test_counts_are_told_at_most_once_a_second(self) -> None:
        def count() -> None:
            with patch.object(progress, "monotonic", side_effect=[0, 0.5, 1.0, 1.0, 1.5, 1.9, 2.5, 2.5]):
                tell = progress.counter("tracing", 5000)
                for done in (1, 2000, 3000, 4000, 5000):
                    tell(done)

        self.assertEqual(said(count), "jinxbanyan: tracing: 2,000 of 5,000\njinxbanyan: tracing: 5,000 of 5,000\n")
