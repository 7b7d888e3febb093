# SPDX-License-Identifier: MIT
"""`python3 -m msat` is msat-explain."""

import sys

from .explain.command import main

if __name__ == "__main__":
    sys.exit(main())
