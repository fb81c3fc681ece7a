"""The command tells of long work on standard error, and of nothing else."""

from unittest.mock import patch

from jinxbanyan import progress

from .support import LOWER, UPPER, Case


class Command(Case):
    def test_long_work_is_told_of(self) -> None:
        raster, outlets = self.raster(), self.points(UPPER, LOWER)
        with patch.object(progress, "PATIENCE", 0.0):
            ran = self.trace(raster, outlets, "--no-dropping")
        self.assertEqual(ran.status, 0)
        for line in ("tracing outlets: 1 of 2", "tracing outlets: 2 of 2", "drawing paths: 2 of 2"):
            self.assertIn(f"jinxbanyan: {line}\n", ran.err)
        self.assertEqual(self.trace(raster, outlets).err, "")
