"""Tests of the parts that are about rasters, on real files. Without the packages that they need they fail at once."""

import os
import sys
from importlib.util import find_spec

_MISSING = [name for name in ("rasterio", "matplotlib", "numpy") if find_spec(name) is None]
if _MISSING:
    wanted = " ".join(f"python3-{name}" for name in _MISSING)
    print(f"tests/rasters cannot run: install the Debian packages {wanted}", file=sys.stderr, flush=True)
    # The loader of unittest would make a test of any exception, and go on.
    os._exit(1)
