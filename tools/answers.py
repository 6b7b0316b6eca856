"""What the program `strand` has to answer to words and files, by docs/program.md and docs/FORMATS.md.

Where a file is refused, and for `asm`, `list`, `upgrade`, `judge`, `gen-image` and `gen-schedule`, that is the whole text. Of a report,
and of those of generations, it is all lines but `path`: what the cores did and saw, the bubbles, what the modules hold, the durable
persists, the caches, and the verdict. That line is compared with its form alone, and so are a trace, a certificate and a check. It is
outside of what is proved.
"""
import itertools
import re

import assembler
import certificates
import formats
import generator
import traces
import turns
import verdicts
import visible
from formats import Refused

H, N = rb"[0-9a-f]{16}", rb"(?:0|[1-9][0-9]*)"
LIFE = rb"(?:running|halted|trap (?:fetch|illegal|(?:target|misaligned|access|call) H))"
CAUSE = rb"(?:ended|join|conflict|queue|noitem|noroom|notempty|noentry|flightfull|olderwaits)"


def form(text):
    """The pattern of a text, where H is an address or a value, N a number and LIST a number of numbers, and these."""
    for name, pattern in ((rb"LIST", rb"N:(?: N)*"), (rb"CAUSE", CAUSE), (rb"LIFE", LIFE), (rb"\bH\b", H), (rb"\bN\b", N)):
        text = re.sub(name, lambda _, pattern=pattern: pattern, text)
    return re.compile(text)


REPORT_LINES = (rb"stop N\n(?:core N pc H LIFE\n(?:reg N x[1-9][0-9]? H\n)*)+(?:out N H\n)*(?:bubble N CAUSE\n)*(?:vis H H\n)*(?:pm H H\n)*"
                rb"durable LIST\npath LIST\n(?:cache N hits N misses N\n)+")
REPORT = form(REPORT_LINES)
GENERATIONS = form(rb"(?:generation N\n" + REPORT_LINES + rb"yes LIST\n)+")
TRACE = form(rb"(?:event N (?:load N H|store N H H(?: persist N)?|barrier N|newstrand N|join N|out N H)\n)*(?:edge N N\n)*")
YES = form(rb"yes LIST\n")
REFUTATIONS = {0: form(rb"(?:joined N\n|order N N\n|match N (?:N|first)\n)*no H (?:N|first)\n"), 1: YES}
CHECKS = {0: form(rb"accepted\n"), 1: form(rb"rejected N\n")}
SUMMARY = form(rb"gen N N\npersists N\ndurable N\npath N\ndone N\njudge yes N\n")
LISTS = re.compile(rb"^(?:durable|path|yes) ([0-9]+):(.*)$", re.MULTILINE)


class Answer:
    """The status that is due, and the text that is."""

    def __init__(self, status, text):
        self.status, self.text = status, text

    def fault(self, called):
        """What is wrong with the call's answer, or nothing."""
        if called.status != self.status:
            return f"status {called.status}, and {self.status} is due with {self.text[:60]!r}"
        if called.text != self.text:
            at = next((at for at, (one, other) in enumerate(zip(called.text, self.text)) if one != other),
                      min(len(called.text), len(self.text)))
            return f"from byte {at} on it puts {called.text[at:at + 60]!r}, and {self.text[at:at + 60]!r} is due"
        return ""


class Formed:
    """A text of the pattern that goes with the status."""

    def __init__(self, patterns, begin=b""):
        self.patterns, self.begin = patterns, begin

    def fault(self, called):
        pattern = self.patterns.get(called.status)
        if pattern is None:
            return f"status {called.status}, and one of {list(self.patterns)} is due; it puts {called.text[:60]!r}"
        if not called.text.startswith(self.begin) or not pattern.fullmatch(called.text):
            return f"a text of another form: {called.text[:60]!r}"
        if any(int(count) != len(numbers.split()) for count, numbers in LISTS.findall(called.text)):
            return "a number of numbers that isn't theirs"
        return ""


class Run:
    """Some steps of a schedule made one by one: what the cores see, where the persists are, and the events."""

    def __init__(self, machine, image, schedule, stop):
        self.mode, self.initial, self.stop = machine[b"mode"].decode(), image.persistent, stop
        self.seen = visible.Visible(image, machine[b"sets"], machine[b"ways"])
        self.turns = turns.Machine(len(image.entries), formats.settings_of(machine))
        self.words = list(image.persistent)  # as the modules hold them
        self.values, self.bubbles, self.events = {}, [], []
        steps = itertools.chain.from_iterable(itertools.repeat(step[:2], step[2]) for step in schedule)
        for number, (letter, numbers) in enumerate(itertools.islice(steps, stop), 1):
            self.step(number, letter.decode(), numbers)

    def retire(self, number):
        """A core's step, and the cause where it is a bubble."""
        if self.seen.cores[number].life != "running":
            return "ended"
        found = self.seen.next_event(number)
        if found:
            kind, address = found
            word = None if address is None else address // 8 * 8
            is_persist = kind == "store" and address >= assembler.BASES["persist"]
            event = turns.Event(kind, number, word, len(self.turns.persists) if is_persist else None)
            cause = self.turns.retire(event)
            if cause:
                return cause
        self.seen.retire(number)
        if found:
            value = self.seen.memory["persist"][self.place_of(event)] if is_persist else None
            self.values[event.persist] = value
            self.events.append(traces.Event(kind, number, word, value, event.persist))
        return None

    @staticmethod
    def place_of(event):
        return (event.word - assembler.BASES["persist"]) // 8

    def step(self, number, letter, numbers):
        if letter == "c":
            cause = self.retire(*numbers)
        else:
            written = self.turns.flight[numbers[0]:numbers[0] + 1] if letter == "w" else []
            cause = self.turns.move(number, letter, *numbers)
            if written and not cause:
                self.words[self.place_of(written[0])] = self.values[written[0].persist]
        if cause:
            self.bubbles.append(f"bubble {number} {cause}")

    def persist_lines(self):
        base = assembler.BASES["persist"]
        yield from (f"pm {base + 8 * place:016x} {value:016x}" for place, value in enumerate(self.words) if value)
        durable = [event.persist for event in self.turns.persists if turns.is_durable(event)]
        yield " ".join([f"durable {len(durable)}:", *map(str, durable)])

    def report(self, path):
        """The lines of its report with this line of the longest chain."""
        return [f"stop {self.stop}", *self.seen.core_lines(), *self.seen.out_lines(), *self.bubbles, *self.seen.word_lines(),
                *self.persist_lines(), path, *self.seen.cache_lines()]

    def verdict(self, found):
        """The line of the judge's verdict on these words."""
        changed = [place for place, (one, other) in enumerate(zip(self.initial, found)) if one != other]
        places = sorted({*changed, *map(self.place_of, self.turns.persists)})
        words = {assembler.BASES["persist"] + 8 * place: (self.initial[place], found[place]) for place in places}
        return verdicts.verdict_line(certificates.Order(self.events, self.mode), words)


def text_of(lines):
    return "".join(line + "\n" for line in lines).encode()


def paths_of(text):
    return [line.decode() for line in re.findall(rb"^path .*$", text, re.MULTILINE)]


class Report(Formed):
    """The report of a run of what was found in the files; it tells the longest chain."""

    def __init__(self, found, stop):
        super().__init__({0: REPORT})
        self.found, self.stop = found, stop

    def due(self, text):
        """The text that is due where the longest chains are those that it tells."""
        run = Run(self.found["machine"], self.found["image"], self.found["schedule"], self.stop)
        return text_of(run.report(*paths_of(text)))

    def fault(self, called):
        return super().fault(called) or Answer(0, self.due(called.text)).fault(called)


class Generations(Report):
    """Such a report and the judge's yes for each generation, which starts with the words that the one before left."""

    def __init__(self, found, parts):
        Formed.__init__(self, {0: GENERATIONS})
        self.found, self.parts = found, parts

    def due(self, text):
        paths, image, texts = paths_of(text), self.found["image"], []
        for number, ((schedule, stop), path) in enumerate(zip(self.parts, paths), 1):
            run = Run(self.found["machine"], image, schedule, stop)
            texts.append(text_of([f"generation {number}", *run.report(path), run.verdict(run.words)]))
            image = image._replace(persistent=run.words)
        return b"".join(texts) if len(paths) == len(self.parts) else b""


def contents(kind, data, before):
    """What a file of this kind says, given those before it."""
    if len(data) > formats.BYTES[kind]:
        raise Refused("limit", "bytes", formats.BYTES[kind])
    if kind == "schedule":
        return formats.read_schedule(data, len(before["image"].entries), before["machine"][b"buffers"])
    if kind == "crash":
        return formats.read_crash(data, len(before["image"].persistent))
    return {"machine": formats.read_machine, "image": formats.read_image, "text": assembler.assemble,
            "certificate": formats.read_certificate}[kind](data)


def of_generated(command, words):
    seed, size = (formats.number_of(word) for word in words)
    if not 1 <= size <= generator.SIZE:
        return Answer(8, b"fault limit size %d\n" % size)
    if command == "gen-image":
        return Answer(0, generator.image(seed))
    if command == "gen-schedule":
        return Answer(0, generator.schedule(seed, size))
    return Formed({0: SUMMARY}, b"gen %d %d\n" % (seed, size))


def of_judge(found, stop):
    run = Run(found["machine"], found["image"], found["schedule"], stop)
    line = run.verdict(found["crash"])
    return Answer(int(line.startswith("no ")), text_of([line]))


def of_run(command, found, schedules, stops):
    """The answer of a command that steps a machine: each of the schedules is cut off at its stop."""
    counts = [formats.steps_in(schedule) for schedule in schedules]
    stops = [steps if stop == b"end" else formats.number_of(stop) for stop, steps in zip(stops, counts)]
    for stop, steps in zip(stops, counts):
        if stop > steps:
            return Answer(9, b"fault stop %d %d\n" % (stop, steps))
    if command == "again":
        return Generations(found, list(zip(schedules, stops)))
    if command == "judge":
        return of_judge(found, stops[0])
    return {"run": Report(found, stops[0]), "trace": Formed({0: TRACE}), "refute": Formed(REFUTATIONS), "check": Formed(CHECKS)}[command]


def is_due(word, due):
    return due in formats.KINDS or (due == "STOP" and word == b"end") or formats.number_of(word) is not None


def dues_of(words, commands):
    """What is due for each word of a command, or None where the words are none of these commands."""
    command = words[0].decode("utf-8", "replace") if words else ""
    if command not in commands:
        return None
    dues = formats.dues_of(command, len(words) - 1)
    return dues if len(dues) == len(words) - 1 and all(map(is_due, words[1:], dues)) else None


def answer(words, fetch, commands):
    """The answer that is due to these words. `fetch` gives a file's bytes by its name, or None where it can't be read."""
    dues = dues_of(words, commands)
    if dues is None:
        return Answer(2, b"fault words\n")
    command = words[0].decode()
    if command in formats.GENERATED:
        return of_generated(command, words[1:])
    named = [(formats.KINDS[due], word) for word, due in zip(words[1:], dues) if due in formats.KINDS]
    found, schedules = {}, []
    for at, (kind, name) in enumerate(named, 1):
        data = fetch(name)
        if data is None:
            return Answer(4, b"fault file %d\n" % at)
        try:
            found[kind] = contents(kind, data, found)
        except Refused as fault:
            return Answer(fault.status(), fault.line(at))
        schedules += [found[kind]] if kind == "schedule" else []
    if command == "asm":
        return Answer(0, formats.write_image(found["text"]))
    if command == "upgrade":
        return Answer(0, formats.write_image(found["image"]))
    if command == "list":
        return Answer(0, assembler.listing(found["image"]))
    return of_run(command, found, schedules, [word for word, due in zip(words[1:], dues) if due == "STOP"])
