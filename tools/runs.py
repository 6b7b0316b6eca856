"""One run of the program `strand`, as anybody may ask for it: what it puts, and the steps of a schedule.

The tools read a run by this. It is outside of what is proved.
"""
import os
import subprocess

import faults
import formats
import inputs

WORDS = (b"reg ", b"vis ", b"pm ")  # lines of a report that most tools don't read; there may be 800,000
EDGES = (b"edge ",)


def answer(program, *words, skipped=()):
    """The lines that the program puts for these words, without those that begin so, and its status."""
    try:
        with subprocess.Popen([program, *words], stdin=subprocess.DEVNULL, stdout=subprocess.PIPE,
                              env={**os.environ, "STRAND_HELP": "off"}) as called:
            lines = [line.decode("ascii").rstrip("\n") for line in called.stdout if not line.startswith(skipped)]
    except OSError as fault:
        inputs.stop(f"{program}: {inputs.why_unread(fault)}")
    return lines, called.returncode


def fault_of(words, lines, status):
    """A sentence on an answer that isn't the one asked for."""
    line = lines[-1][:200] if lines else "no line"
    said = faults.said(words, status, line)
    return said.message if said else f"`{' '.join(words)}` ends with status {status}: {line}"


def ask(program, *words, skipped=()):
    """The lines that the program puts for these words. A fault ends this tool, with what it means."""
    lines, status = answer(program, *words, skipped=skipped)
    if status != 0:
        inputs.stop(fault_of(words, lines, status))
    return lines


def words_of(name):
    """The words of each line of a text that the program has accepted, without comments and empty lines."""
    with open(name, "rb") as file:
        for line in file:
            words = line.partition(b"#")[0].decode("ascii").split()
            if words:
                yield words


def settings(name):
    """A machine file's mode, sizes and conflict."""
    return formats.settings_of(inputs.read("machine", name))


def steps_of(name):
    """A schedule's steps, one by one: a letter and its numbers."""
    steps = []
    for words in words_of(name):
        times = int(words[-1]) if "*" in words else 1
        plain = words[:words.index("*")] if "*" in words else words
        steps += [(plain[0], *map(int, plain[1:]))] * times
    return steps


def bubbles_of(report):
    """The causes of a report's bubbles, by the numbers of their steps."""
    return {int(line.split()[1]): line.split()[2] for line in report if line.startswith("bubble ")}


def numbers_of(report, key):
    """The numbers of a report's `durable` or `path` line."""
    line = next(line for line in report if line.startswith(key + " "))
    return [int(word) for word in line.split(":")[1].split()]


def persists_of(trace):
    """The word that each persist of a trace stores to."""
    return [int(line.split()[4], 16) for line in trace if " persist " in line]


def cores_of(report):
    """Each core's program counter and life."""
    cores = (line.split(maxsplit=4) for line in report if line.startswith("core "))
    return [(int(words[3], 16), words[4]) for words in cores]


def cache_of(report):
    """Each core's hits and misses."""
    return [tuple(map(int, line.split()[3:6:2])) for line in report if line.startswith("cache ")]
