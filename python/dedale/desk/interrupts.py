"""What an interrupt by the keyboard must not part."""
import signal
from contextlib import contextmanager
from typing import Iterator


@contextmanager
def uninterrupted() -> Iterator[None]:
    """Has interrupts by the keyboard do nothing within."""
    before = signal.signal(signal.SIGINT, signal.SIG_IGN)
    try:
        yield
    finally:
        signal.signal(signal.SIGINT, before)
