"""How far what takes long is."""
import sys
import time
from contextlib import contextmanager
from threading import Event, Thread
from typing import Iterator

FIRST_SECONDS = 2.0
NEXT_SECONDS = 5.0


@contextmanager
def progress(what: str) -> Iterator[None]:
    """Tells on standard error what goes on, and for how long it has, where what is done within takes long."""
    ended = Event()
    teller = Thread(target=_tell, args=(what, ended), daemon=True)
    teller.start()
    try:
        yield
    finally:
        ended.set()
        teller.join()


def _tell(what: str, ended: Event) -> None:
    started = time.monotonic()
    seconds = FIRST_SECONDS
    while not ended.wait(seconds):
        print(f"{what}: {time.monotonic() - started:.0f} s", file=sys.stderr, flush=True)
        seconds = NEXT_SECONDS
