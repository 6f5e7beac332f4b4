"""Which Python runs the filters: one that has numpy."""
from __future__ import annotations

import os
import sys
from importlib.util import find_spec

SYSTEM = '/usr/bin/python3'  # whose packages are the distribution's


def with_numpy() -> None:
    """Goes on in the system's Python where this one has no numpy: a Python of one's own before it in PATH seldom has."""
    if find_spec('numpy') is None and os.access(SYSTEM, os.X_OK) and os.path.realpath(sys.executable) != os.path.realpath(SYSTEM):
        os.execv(SYSTEM, [SYSTEM] + sys.argv)
