"""Messages, progress, and buffered output."""
import pathlib
import sys
import time

TOP = pathlib.Path(__file__).resolve().parents[2]
INSTALLED = not (TOP / "crates.txt").exists()  # an install, where the tool and the program have their own names


def with_command_names(text):
    """The text with the names that the tool and the program have here: their own in an install, paths in the tree."""
    return text.replace("tools/jobs", "sim3-jobs").replace("./sim3-job", "sim3-job") if INSTALLED else text


def say(message):
    """Prints a message to the user, after flushing standard output."""
    sys.stdout.flush()
    sys.stderr.write(with_command_names(message) + "\n")


def count(number, what):
    """`1 record`, `2,000 records`."""
    return f"{number:,} {what}" + ("" if number == 1 else "s")


class Failure(Exception):
    """An error that ends the command, with its message and exit status."""

    def __init__(self, message, status=2):
        super().__init__(message)
        self.status = status


class Progress:
    """Prints `what: done of total` on standard error, if that is a terminal and the work takes long."""

    STEP = 8192  # units between two looks at the clock

    def __init__(self, what, total, unit="records", step=STEP):
        self.what, self.total, self.unit, self.step = what, total, unit, step
        self.shown, self.next = False, time.monotonic() + 1
        self.live = sys.stderr.isatty()

    def __call__(self, done):
        if not self.live or done % self.step or time.monotonic() < self.next:
            return
        of = f" of {self.total:,}" if self.total else ""
        sys.stderr.write(f"\r{self.what}: {done:,}{of} {self.unit}")
        sys.stderr.flush()
        self.shown, self.next = True, time.monotonic() + 0.2

    def end(self):
        """Clears the line."""
        if self.shown:
            sys.stderr.write("\r\033[K")
            sys.stderr.flush()


class Lines:
    """Buffered lines for standard output."""

    def __init__(self):
        self.waiting = []

    def add(self, *lines):
        self.waiting.extend(lines)
        if len(self.waiting) >= 4096:
            self.flush()

    def flush(self):
        if self.waiting:
            sys.stdout.write("\n".join(self.waiting) + "\n")
            self.waiting.clear()
        sys.stdout.flush()
