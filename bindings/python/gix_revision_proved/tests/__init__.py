"""Tests of the installed package: python3 -m unittest gix_revision_proved.tests"""

from __future__ import annotations

import doctest
import unittest

import gix_revision_proved

from .. import _history
from .test_calls import Calls
from .test_repository import BadEnds, Programs, Repositories
from .test_safety import Safety

__all__ = ["BadEnds", "Calls", "Programs", "Repositories", "Safety"]


def load_tests(loader: unittest.TestLoader, tests: unittest.TestSuite, pattern: str | None) -> unittest.TestSuite:
    """Adds the examples of the documentation to the tests."""
    for module in (gix_revision_proved, _history):
        tests.addTest(doctest.DocTestSuite(module))
    return tests
