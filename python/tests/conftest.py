"""What all tests stand on."""
import signal

import pytest
from hypothesis import settings

from dedale.program import find_program

settings.register_profile("fixed", derandomize=True, deadline=None, max_examples=100)
settings.load_profile("fixed")

# a shell has what it runs in the background ignore interrupts, and its children inherit that
signal.signal(signal.SIGINT, signal.default_int_handler)


@pytest.fixture(scope="session")
def program() -> str:
    """The program to test with."""
    return find_program()
