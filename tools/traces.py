"""A trace as `strand trace` puts it (docs/FORMATS.md): its events and its edges.

tools/graph, check-certificate and why read a trace by this. It is outside of what is proved.
"""
import array
import bisect
from collections import namedtuple

import formats
import names

# What an event is, its core, the word of an access, the value of a store or an output, and a persist's number; or None.
Event = namedtuple("Event", "kind core word value persist")
WORDS = {"load": 1, "store": 2, "barrier": 0, "newstrand": 0, "join": 0, "out": 1}  # behind the core


def event_of(words, persists):
    """The event of a line's words, after so many persists."""
    kind, core, *rest = words
    is_persist = kind == "store" and len(rest) == 4 and rest[2:] == ["persist", str(persists)]
    word = int(rest[0], 16) if kind in ("load", "store") else None
    if len(rest) - 2 * is_persist != WORDS[kind] or is_persist != (kind == "store" and word >= names.BASES[2]):
        raise ValueError(kind)
    value = int(rest[WORDS[kind] - 1], 16) if kind in ("store", "out") else None
    return Event(kind, int(core), word, value, persists if is_persist else None)


class Edges:
    """The edges of a trace, in its order: by the later event, and then by the earlier one."""

    def __init__(self):
        self.befores, self.afters = array.array("I"), array.array("I")

    def __iter__(self):
        return zip(self.befores, self.afters)

    def add(self, before, after):
        self.befores.append(before)
        self.afters.append(after)

    def within(self, first, last):
        """Those whose later event is behind the first of two events, up to the last one."""
        begin, end = (bisect.bisect_right(self.afters, event) for event in (first, last))
        return zip(self.befores[begin:end], self.afters[begin:end])


def read_trace(lines):
    """The events and the edges of a trace's lines, or a ValueError with the first line that is none."""
    events, edges, persists, last = [], Edges(), 0, (0, 0)
    for number, line in enumerate(lines, 1):
        try:
            kind, *words = line.split()
            if kind == "edge":
                before, after = map(int, words)
                if not 0 <= before < after < len(events) or (after, before) <= last:
                    raise ValueError(line)
                last = after, before
                edges.add(before, after)
            elif kind == "event" and int(words[0]) == len(events) < formats.MOST_STEPS:
                events.append(event_of(words[1:], persists))
                persists += events[-1].persist is not None
            else:
                raise ValueError(line)
        except (IndexError, KeyError, ValueError):
            raise ValueError(f"line {number}: no line of a trace: {line.strip()[:60]}") from None
    return events, edges


def read_events(lines):
    """The events of a trace's lines alone."""
    return read_trace(line for line in lines if not line.startswith("edge "))[0]
