"""One call of a built program: how it ends, what it puts and says, its seconds on a processor and the memory it held.

tools/fuzz, tools/hostile, tools/check-memory, tools/check-allocations and the benches call programs by this.
"""
import os
import re
import subprocess
import tempfile
import threading
from collections import namedtuple

# `status` is below 0 where a signal ended it; no more than `megabytes` were resident at once. The system counts those of the caller,
# from which the new process begins, so they may be fewer.
Called = namedtuple("Called", "status text said seconds megabytes")


def call(command, wait=60, output=subprocess.PIPE, before=None, **given):
    """Calls it, and ends it after so many seconds. `before` is done in the new process, before the program begins."""
    child = subprocess.Popen(command, stdin=subprocess.DEVNULL, stdout=output, stderr=subprocess.PIPE, preexec_fn=before, **given)
    timer = threading.Timer(wait, child.kill)
    timer.start()
    with child.stderr:
        text = child.stdout.read() if child.stdout else b""
        said = child.stderr.read()
    _, status, used = os.wait4(child.pid, 0)
    timer.cancel()
    child.returncode = os.waitstatus_to_exitcode(status)
    if child.stdout:
        child.stdout.close()
    return Called(child.returncode, text, said, used.ru_utime + used.ru_stime, used.ru_maxrss / 1024)


def allocations(command):
    """How many allocations a call makes by valgrind's count of malloc, calloc and realloc, or None where it can't tell or the call fails."""
    with tempfile.NamedTemporaryFile() as log:
        done = subprocess.run(["valgrind", f"--log-file={log.name}", "--leak-check=no", *command], stdin=subprocess.DEVNULL,
                              stdout=subprocess.DEVNULL, stderr=subprocess.DEVNULL)
        found = re.search(rb"total heap usage: ([0-9,]+) allocs", log.read())
    return int(found[1].replace(b",", b"")) if found and done.returncode == 0 else None


def report(name, notes):
    """Prints a line for each case, with what is told of it and what is wrong, and the counts. Gives 0 where nothing is wrong."""
    faults = []
    for case, told, fault in notes:
        faults.append(bool(fault))
        print(f"{case}: {told}{f': {fault}' if fault else ''}", flush=True)
    print(f"{name}: {faults.count(False)} passed, {faults.count(True)} failed")
    return int(any(faults))
