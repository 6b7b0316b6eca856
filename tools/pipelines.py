"""A replayed run as a log for pipeline viewers, in which each persist is an instruction: Konata's log, and gem5's O3PipeView.

A step is a cycle. docs/FORMATS.md tells the forms; tools/timeline puts them.
"""
import collections

STAGES = ("Q", "B", "F")  # in the core's queue, in a strand buffer, in flight
TICKS = 1000  # of gem5's clock in a cycle
UNTOLD = ("decode", "rename")  # stages of gem5 that a persist has not: it passes them as it is stored


def text_of(run, event):
    """A persist as a row names it; a colon would end a field of O3PipeView."""
    return f"core {event.core} strand {event.strand} epoch {event.epoch} {run.names.short(event.word)} = 0x{event.value:x}"


def lines_by_step(run):
    """The lines of Konata's log by their steps. A persist that isn't durable at the end is told as flushed."""
    found, end = collections.defaultdict(list), len(run.steps) + 1
    for row, event in enumerate(run.persists):
        times = [event.step, *event.moves]
        found[event.step] += [("I", row, event.persist, event.core), ("L", row, 0, text_of(run, event)),
                              ("L", row, 1, f"pc 0x{event.place:08x}")]
        for stage, begin, after in zip(STAGES, times, [*times[1:], end]):
            found[begin].append(("S", row, 0, stage))
            found[after].append(("E", row, 0, stage))
        is_durable = len(event.moves) == len(STAGES)
        found[times[-1] if is_durable else end].append(("R", row, event.persist, int(not is_durable)))
    for before, after in zip(run.chain, run.chain[1:]):
        found[run.persists[after].step].append(("W", after, before, 0))
    return found


def konata(run):
    """The log that Konata reads."""
    found, last = lines_by_step(run), 0
    lines = ["Kanata\t0004", "C=\t0"]
    for step in sorted(found):
        lines.append(f"C\t{step - last}")
        last = step
        # What ends comes before what begins at the same step, and a row before what is told of it.
        lines += ["\t".join(map(str, line)) for line in sorted(found[step], key=lambda line: "ERILWS".index(line[0]))]
    return "\n".join([*lines, ""])


def o3(run):
    """The log that gem5's O3PipeView writes. A time of 0 stands for what was not reached."""
    lines = []
    for event in run.persists:
        stored, dispatched, sent, written = (TICKS * time for time in (event.step, *event.moves, 0, 0, 0)[:4])
        lines += [f"O3PipeView:fetch:{stored}:0x{event.place:08x}:0:{event.persist}:{text_of(run, event)}",
                  *(f"O3PipeView:{stage}:{stored}" for stage in UNTOLD), f"O3PipeView:dispatch:{dispatched}", f"O3PipeView:issue:{sent}",
                  f"O3PipeView:complete:{written}", f"O3PipeView:retire:{written}:store:{written}"]
    return "\n".join([*lines, ""]) if lines else ""
