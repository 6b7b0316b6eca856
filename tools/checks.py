"""What tools/check-examples, check-tools and check-launch share: a count of what passed, work on all processors, and the
transcripts of a page."""
import os
import shlex
import threading
from concurrent.futures import ThreadPoolExecutor


class Check:
    """Counts what passed and failed, and prints what failed."""

    def __init__(self):
        self.passed = self.failed = 0
        self.lock = threading.Lock()

    def note(self, name, fault):
        """Counts one check; `fault` is empty where it passed."""
        with self.lock:
            self.passed, self.failed = self.passed + (not fault), self.failed + bool(fault)
        if fault:
            print(f"{name}: {fault}")


def for_each(work, items):
    """Does `work` for each of the items, which have nothing to do with one another."""
    with ThreadPoolExecutor(os.cpu_count()) as threads:
        for done in [threads.submit(work, item) for item in items]:
            done.result()


def transcripts(path):
    """The commands of a page, each with its line's number and the lines behind it."""
    found, shown = [], None
    with open(path, encoding="utf-8") as page:
        for number, line in enumerate(page, 1):
            if line.startswith("    $ "):
                shown = []
                found.append((number, shlex.split(line[6:]), shown))
            elif line.startswith("    ") and shown is not None:
                shown.append(line[4:].rstrip("\n"))
            else:
                shown = None
    return found
