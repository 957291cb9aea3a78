"""Tests of the commands, by the library for C. Where there is none they are skipped."""
from __future__ import annotations

import unittest

from rectangle_pack import _library

try:
    _library.loaded()
except ImportError as why:
    raise unittest.SkipTest(str(why)) from why
