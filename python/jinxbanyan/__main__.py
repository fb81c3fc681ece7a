"""The command: python3 -m jinxbanyan."""

import sys

from .command import main

if __name__ == "__main__":
    sys.exit(main())
