"""A block in which this thread computes as the proofs say."""
import threading

from . import raw


class environment:
    """Sets what is proved for this thread and a block: `with sim3.environment():`. After the block the thread has what
    it had, all of it. Blocks nest. No `await` or `yield` inside: other code would run in it."""

    def __init__(self):
        self._entered = []

    def __enter__(self):
        self._entered.append((threading.get_ident(), raw.library()["environment_enter"]()))
        return self

    def __exit__(self, *_):
        thread, was = self._entered.pop()
        if threading.get_ident() != thread:
            raise RuntimeError("sim3.environment: left in another thread than it was entered in; that one keeps what "
                               "is proved")
        raw.library()["environment_leave"](was)
