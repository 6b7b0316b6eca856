"""What the benches share: the built program, its files, its times, and the table of what was measured. It does nothing by itself.

Times are seconds on a processor, of the user and of the system, so that a busy machine changes them little. A bench is a script
with a function `measured`, which is given a folder for its files and gives what it measured, one `Series` a line of the table;
`bench/all` puts those of all benches into one table.
"""
import importlib.machinery
import importlib.util
import math
import os
import re
import subprocess
import sys
import tempfile
from collections import namedtuple

TOP = os.path.dirname(os.path.dirname(os.path.abspath(__file__)))
sys.path.append(os.path.join(TOP, "tools"))
import calls  # noqa: E402 (after the line above, which says where it is)
import formats  # noqa: E402

PROGRAM = os.path.join(TOP, "build", "strand")
SIZES, LARGEST = (2, 4, 2), (8, 64, 8)  # buffers, sets and ways of a machine
MODES = ("strict", "epoch", "strand")

LINEAR = 2.2  # how much longer twice the size may take
CALL = 1.0  # seconds that a call may take, whatever it is given
RUN_STEPS = (50_000, 100_000, 200_000)  # of long runs
GRAIN = 0.002  # shorter times are told, and their growth is not compared: the start of a process and the clock count too much

# What was measured of one case: seconds at rising sizes. `growth` is how much longer twice the size may take, and `most` how many
# seconds the largest may; None says that nothing is asked.
Series = namedtuple("Series", "case unit points growth most")

NOP = 0x00000013
EBREAK = 0x00100073
BARRIER = 0x0000000B
NEW_STRAND = 0x0000100B
# lui x2, 0x40000; lui x3, 0x20000; addi x1, x0, 1: the bases of the data words and a value to store
START = [0x40000137, 0x200001B7, 0x00100093]


def store(base, offset):
    """sd x1, offset(base)"""
    return (offset >> 5 & 127) << 25 | 1 << 20 | base << 15 | 3 << 12 | (offset & 31) << 7 | 0x23


def load(base, offset):
    """ld x4, offset(base)"""
    return (offset & 4095) << 20 | base << 15 | 3 << 12 | 4 << 7 | 0x03


def jump_back(words):
    """jal x0, so many code words back"""
    offset = -4 * words
    return (offset >> 20 & 1) << 31 | (offset >> 1 & 1023) << 21 | (offset >> 11 & 1) << 20 | (offset >> 12 & 255) << 12 | 0x6F


def image(entries, code, volatile, persistent):
    return formats.write_image(formats.Image(entries, code, volatile, persistent, ()))


def machine(mode, conflict="stall", sizes=SIZES):
    """The largest queues, rings and flight, and where nothing else is said two buffers a core and a small cache."""
    buffers, sets, ways = sizes
    return f"mode {mode}\nqueue 64\nbuffers {buffers}\nring 64\nflight 64\nsets {sets}\nways {ways}\nconflict {conflict}\n".encode()


def build():
    """Has the script `strand` build the program where it is not there or older than the sources."""
    first = [os.path.join(TOP, "examples", "first", name) for name in ("machine", "image", "schedule")]
    status = subprocess.run([os.path.join(TOP, "strand"), "run", *first, "end"], stdout=subprocess.DEVNULL).returncode
    if status != 0:
        sys.exit(status)


def write(folder, name, content):
    path = os.path.join(folder, name)
    with open(path, "wb") as file:
        file.write(content)
    return path


def run(arguments, statuses=(0,)):
    """What one call of the program puts, and its seconds on a processor. It says nothing on standard error."""
    called = calls.call([PROGRAM, *arguments], wait=600)
    if called.status not in statuses or called.said:
        sys.exit(f"{arguments[0]}: status {called.status}, on standard output {called.text[:80]!r}, on standard error {called.said!r}")
    return called.text, called.seconds


def best(arguments, runs=5, statuses=(0,)):
    """The same, with the least seconds of some calls."""
    return min((run(arguments, statuses) for _ in range(runs)), key=lambda called: called[1])


def seconds_of(command):
    """The seconds on a processor of another program's call, which has to end well."""
    called = calls.call(command, wait=600)
    if called.status != 0:
        sys.exit(f"{command[0]}: status {called.status}, {called.said!r}")
    return called.seconds


def has(command):
    """Whether the program has a command that takes two numbers."""
    return calls.call([PROGRAM, command, "1", "1"]).status != 2


def growths(points):
    """How much longer twice the size took, from each size to the next, and whether the times are long enough to compare."""
    for (size, seconds), (larger, longer) in zip(points, points[1:]):
        yield (longer / max(seconds, 1e-9)) ** (1 / math.log2(larger / size)), seconds >= GRAIN


def fault_of(series):
    """What is more than it may be, or nothing."""
    if series.growth is not None and any(comparable and growth > series.growth for growth, comparable in growths(series.points)):
        return f"growth up to {series.growth} is due"
    if series.most is not None and series.points[-1][1] >= series.most:
        return f"less than {series.most} s is due"
    return ""


def skip(why):
    """Says what isn't measured, beside the table."""
    print(f"{why}: skipped", file=sys.stderr, flush=True)


HEAD = ("| Case | Sizes | Seconds | Growth per doubling | Within |", "|---|---|---|---|---|")


def line_of(series):
    """The line of the table."""
    sizes = ", ".join(f"{size:,}" for size, _ in series.points)
    digits = 4 if series.points[-1][1] >= 1e-3 else 10
    seconds = ", ".join(f"{seconds:.{digits}f}" for _, seconds in series.points)
    growth = ", ".join(f"{growth:.2f}" if comparable else f"({growth:.2f})" for growth, comparable in growths(series.points))
    asked = series.growth is not None or series.most is not None
    return f"| {series.case} | {sizes} {series.unit} | {seconds} | {growth or '-'} | {fault_of(series) or ('yes' if asked else '-')} |"


def report(measured):
    """Prints each line as soon as it is measured. Gives the lines, and whether all is within what is asked."""
    lines, good = [], True
    for series in measured:
        lines.append(line_of(series))
        print(lines[-1], flush=True)
        good &= not fault_of(series)
    return lines, good


def loaded(script):
    """A bench or a tool, by its path from the top, as a module."""
    loader = importlib.machinery.SourceFileLoader(re.sub("[^a-z]", "_", script), os.path.join(TOP, script))
    module = importlib.util.module_from_spec(importlib.util.spec_from_loader(loader.name, loader))
    loader.exec_module(module)
    return module


def main(measured, needs_program=True):
    """A bench by itself: the program is built where it has to be, and the bench's part of the table is printed."""
    if needs_program:
        build()
    print("\n".join(HEAD))
    with tempfile.TemporaryDirectory() as folder:
        sys.exit(0 if report(measured(folder))[1] else 1)
