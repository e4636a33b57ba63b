"""Finds the package next to the tests, if it is not installed, and the built program, if there
is one."""
import os
import signal
import sys

import pytest

sys.path.insert(0, os.path.dirname(os.path.dirname(os.path.abspath(__file__))))
# A shell that runs the tests in the background, or nohup, makes every child process ignore these.
signal.signal(signal.SIGINT, signal.default_int_handler)
signal.signal(signal.SIGHUP, signal.SIG_DFL)


def _built(name: str, variable: str) -> str:
    """Returns the path of a built program, which the environment names."""
    program = os.environ.get(variable, "")
    if not os.access(program, os.X_OK):
        pytest.skip(f"no built {name}: tools/python-tests PROGRAM names one")
    return os.path.abspath(program)


@pytest.fixture
def pitc():
    """The path of a built pitc, which the environment names as PITC."""
    return _built("pitc", "PITC")


@pytest.fixture
def pitc_thin():
    """The path of a built pitc_thin, which the environment names as PITC_THIN."""
    return _built("pitc_thin", "PITC_THIN")
