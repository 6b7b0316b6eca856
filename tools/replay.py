"""Where each persist of a run was, step by step: docs/cycle.md and docs/steps.md over what the program puts of the run.

The cores' instructions are executed (visible.py), and every turn is worked out (turns.py). A difference from the program's report or
trace ends the tool with a word. It is outside of what is proved.
"""
import assembler
import formats
import inputs
import names
import runs
import turns
import visible

PERSISTENT = names.BASES[2]


class Event(turns.Event):
    """An event of the trace, by its line: with its value, the step that made it, and where its instruction stands."""

    def __init__(self, words):
        kind = words[0]
        super().__init__(kind, int(words[1]), int(words[2], 16) if kind in ("load", "store") else None,
                         int(words[5]) if len(words) == 6 else None)
        self.value = int(words[3 if kind == "store" else 2], 16) if kind in ("store", "out") else None
        self.step = self.place = None


class Run:
    """A run of so many steps at most: its steps, settings and report, the trace's events, what the cores see, and the image's names."""

    def __init__(self, program, machine, image, schedule, stop, most=formats.MOST_STEPS):
        self.words = (machine, image, schedule)
        self.program = program
        self.report = self.ask("run", stop, runs.WORDS)
        self.settings = runs.settings(machine)
        self.steps = runs.steps_of(schedule)[:int(self.report[0].split()[1])]
        if len(self.steps) > most:
            inputs.stop(f"{len(self.steps)} steps are too many: take a STOP up to {most}")
        self.bubbles = runs.bubbles_of(self.report)
        self.cores = runs.cores_of(self.report)
        self.lives = [life for _, life in self.cores]
        self.image = inputs.read("image", image)
        self.names, self.seen = names.Names(self.image), visible.Visible(self.image, self.settings["sets"], self.settings["ways"])
        self.events = [Event(line.split()[2:]) for line in self.ask("trace", stop, runs.EDGES)]
        self.turns, self.other, self.made = turns.Machine(len(self.cores), self.settings), [], 0
        self.persists = [event for event in self.events if event.persist is not None]
        self.chain = runs.numbers_of(self.report, "path")

    def ask(self, command, stop, skipped=()):
        return runs.ask(self.program, command, *self.words, str(stop), skipped=skipped)


def text_at(seen, place):
    """An instruction's text without commas, or `fetch' where there is none."""
    at = (place - assembler.BASES["code"]) // 4
    if place % 4 or not 0 <= at < len(seen.code):
        return "fetch"
    return (assembler.text_of(seen.code[at]) or f".word 0x{seen.code[at]:08x}").replace(",", "")


def compare(run, step, found):
    """Ends the tool where the program tells another turn."""
    told = run.bubbles.get(step)
    if found != told:
        inputs.stop(f"step {step}, `{' '.join(map(str, run.steps[step - 1]))}': by docs/cycle.md it is {found or 'done'}, and the "
                    f"program says {told or 'done'}")


def next_of_trace(run, step, number, kind, word):
    """The trace's next event, which has to be this one."""
    event = run.events[run.made] if run.made < len(run.events) else None
    if event is None or (event.kind, event.core, event.word) != (kind, number, word):
        inputs.stop(f"step {step} makes the event {kind} of core {number}, and event {run.made} of the trace is another")
    event.step = step
    run.made += 1
    return event


def retire(run, step, number):
    """A core's step: the turn of its next instruction, and its event, if it makes one."""
    seen, core = run.seen, run.seen.cores[number]
    if core.life != "running":
        return compare(run, step, "ended")
    kind, address = seen.next_event(number) or (None, None)
    word = address // 8 * 8 if address is not None else None
    if step in run.bubbles:
        is_persist = kind == "store" and word >= PERSISTENT
        return compare(run, step, kind and run.turns.turn(turns.Event(kind, number, word, 0 if is_persist else None)))
    place, outs = core.pc, len(seen.outs)
    seen.retire(number)
    kind = "out" if len(seen.outs) > outs else kind
    if kind is None:
        run.other.append((step, number, text_at(seen, place)))
        return None
    event = next_of_trace(run, step, number, kind, word)
    event.place = place
    return compare(run, step, run.turns.retire(event))


def replay(run):
    """Makes the run's steps, and fills in when each event was made and moved."""
    for step, (letter, *numbers) in enumerate(run.steps, 1):
        if letter == "c":
            retire(run, step, *numbers)
        else:
            compare(run, step, run.turns.move(step, letter, *numbers))
    durable = [event.persist for event in run.persists if turns.is_durable(event)]
    if run.made != len(run.events) or durable != runs.numbers_of(run.report, "durable"):
        inputs.stop(f"by docs/cycle.md {len(durable)} persists are durable, {durable}, and the program says otherwise")
    if [(core.pc, core.life) for core in run.seen.cores] != run.cores:
        inputs.stop("by docs/steps.md the cores stand elsewhere than the program says")
