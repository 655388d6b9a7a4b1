#!/usr/bin/env python3
"""The program `follow`: `follow.py --help`. It is in tosculai_tools/follow.py."""

import sys

from tosculai_tools.follow import run

if __name__ == "__main__":
    sys.exit(run())
