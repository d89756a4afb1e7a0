"""The modules of bench/ that checks use."""

import os
import sys

from lib.programs import TOP

sys.path.append(os.path.join(TOP, "bench"))

import captures  # noqa: E402
import chart  # noqa: E402

__all__ = ["captures", "chart"]
