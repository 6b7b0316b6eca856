"""The turns of a run, by its events: which step is done, and which is a bubble and why, under both rules of conflicts.

Written from docs/cycle.md, docs/persist-order.md and docs/waits.md alone, and not from the program's code, so that the tools compare
two readings. It is outside of what is proved.
"""
CUTS = {"strict": ("load", "store"), "epoch": ("barrier", "join"), "strand": ("barrier", "join")}
ITEMS = {"strict": (), "epoch": ("barrier",), "strand": ("barrier", "newstrand")}


class Event:
    """What an instruction makes: its kind, its core, the word of an access, and the number of a persist. `moves` are the steps that
    dispatched, sent and wrote it. Its strand, its epoch and, under `tag`, the wait of an access are numbered when it is retired."""

    def __init__(self, kind, core, word=None, persist=None):
        self.kind, self.core, self.word, self.persist = kind, core, word, persist
        self.strand = self.epoch = self.made = self.wait = None
        self.moves = []


def is_durable(event):
    return len(event.moves) == 3


def are_of_one_strand(one, other):
    return (one.core, one.strand) == (other.core, other.strand)


def greater(one, other):
    """At each core the greater one of two numbers."""
    return [max(numbers) for numbers in zip(one, other)]


class Word:
    """Of a word its last store, and the loads since: of each strand the last one, and the greatest of all their waits. Accesses before
    the last store come directly before it, so it has what they hand on."""

    def __init__(self, none):
        self.none = none
        self.store, self.loads, self.waits = None, {}, none

    def conflicting(self, event):
        """Earlier accesses that conflict with this one, and what the waits of all such come to."""
        found = [self.store] if self.store else []
        waits = (self.store.wait if self.store else None) or self.none
        if event.kind == "store":
            return found + list(self.loads.values()), greater(waits, self.waits)
        return found, waits

    def note(self, event):
        if event.kind == "store":
            self.store, self.loads, self.waits = event, {}, self.none
        else:
            self.loads[event.core, event.strand] = event
            self.waits = greater(self.waits, event.wait or self.none)


class Core:
    """Of a core its queue, its dispatched persists by buffers, each list from the oldest on that isn't durable, and all its persists
    with how many of the first are durable. And what its own order hands on to its next access: the greatest wait of all its
    accesses, of those of its open strand, of those of it that a barrier came after, and of those before its last join; and how
    many persists it had made at its last access of the open strand and of older ones, now and at its last join."""

    def __init__(self, buffers, none):
        self.queue, self.lists = [], [[] for _ in range(buffers)]
        self.persists, self.first = [], 0
        self.strand = self.epoch = 0
        self.none = self.all = self.open = self.fenced = self.joined = none
        self.made = self.made_older = 0
        self.at_join = (0, 0, 0)

    def handed(self, mode):
        """The greatest wait of its accesses that come directly before its next one by its own order."""
        return self.all if mode == "strict" else greater(self.fenced, self.joined)

    def handed_by_strands(self):
        """How many persists it had made at the last access before its last join that is of an older strand than the open one."""
        strand, made, made_older = self.at_join
        return made_older if strand == self.strand else max(made, made_older)

    def note_access(self, event):
        self.made = event.made
        if event.wait:
            self.all, self.open = greater(self.all, event.wait), greater(self.open, event.wait)

    def note_other(self, event, mode):
        if event.kind == "barrier":
            self.fenced = self.open
        elif event.kind == "join":
            self.joined, self.at_join = self.all, (self.strand, self.made, self.made_older)
        elif event.kind == "newstrand" and mode == "strand":
            self.strand, self.open, self.fenced = self.strand + 1, self.none, self.none
            self.made, self.made_older = 0, max(self.made, self.made_older)


class Machine:
    """The cycle rules. Each call gives the cause of a bubble, or None where the step is done."""

    def __init__(self, cores, settings):
        self.settings, self.mode, self.is_tag = settings, settings["mode"], settings["conflict"] == "tag"
        self.none = [0] * cores
        self.cores = [Core(settings["buffers"], self.none) for _ in range(cores)]
        self.words, self.flight, self.persists = {}, [], []

    def is_met(self, wait):
        return all(count <= core.first for count, core in zip(wait, self.cores))

    def join_waits(self, core):
        return bool(core.queue) or core.first < len(core.persists) or (self.is_tag and not self.is_met(core.all))

    def conflicting(self, event):
        return self.words.setdefault(event.word, Word(self.none)).conflicting(event)

    def must_wait(self, event):
        """An earlier access of another strand conflicts, and some persist of its core at or before it isn't durable."""
        return any(other.made > self.cores[other.core].first for other in self.conflicting(event)[0]
                   if not are_of_one_strand(other, event))

    def wait_of(self, core, event):
        found, wait = self.conflicting(event)
        wait = greater(wait, core.handed(self.mode))
        if self.mode == "strand":
            wait[event.core] = max(wait[event.core], core.handed_by_strands())
        for other in found:
            if not are_of_one_strand(other, event):
                wait[other.core] = max(wait[other.core], other.made)
        return wait

    def is_item(self, event):
        return event.persist is not None or event.kind in ITEMS[self.mode]

    def turn(self, event):
        """The turn of the instruction that would make this event."""
        core = self.cores[event.core]
        event.strand = core.strand
        if event.kind == "join" and self.join_waits(core):
            return "join"
        if not self.is_tag and event.word is not None and self.must_wait(event):
            return "conflict"
        if self.is_item(event) and len(core.queue) == self.settings["queue"]:
            return "queue"
        return None

    def retire(self, event):
        cause = self.turn(event)
        if cause:
            return cause
        core = self.cores[event.core]
        event.epoch = core.epoch
        core.epoch += event.kind in CUTS[self.mode]
        if event.word is not None:
            if self.is_tag:
                event.wait = self.wait_of(core, event)
            if event.persist is not None:
                core.persists.append(event)
                self.persists.append(event)
            event.made = len(core.persists)
            self.words.setdefault(event.word, Word(self.none)).note(event)
            core.note_access(event)
        else:
            core.note_other(event, self.mode)
            core.epoch = 0 if core.strand > event.strand else core.epoch
        if self.is_item(event):
            core.queue.append(event)
        return None

    def dispatch(self, step, number):
        core = self.cores[number]
        if not core.queue:
            return "noitem"
        item = core.queue[0]
        held = core.lists[item.strand % len(core.lists)]
        if item.persist is not None and sum(event.strand == item.strand for event in held) == self.settings["ring"]:
            return "noroom"
        if item.kind == "newstrand" and core.lists[(item.strand + 1) % len(core.lists)]:
            return "notempty"
        item.moves.append(step)
        core.queue.pop(0)
        if item.persist is not None:
            held.append(item)
        return None

    def eligible(self, core, buffer):
        """The persists of a buffer that may go, in trace order. A strand's epochs stand there in order."""
        lowest, words = {}, set()
        for event in core.lists[buffer]:
            if is_durable(event):
                continue
            epoch, word = lowest.setdefault(event.strand, event.epoch), (event.strand, event.word)
            if len(event.moves) > 1:
                continue
            if event.epoch == epoch and word not in words and (not self.is_tag or self.is_met(event.wait)):
                yield event
            words.add(word)

    def send(self, step, number, buffer, place):
        core = self.cores[number]
        eligible = list(self.eligible(core, buffer))
        if place >= len(eligible):
            return "noentry"
        if len(self.flight) == self.settings["flight"]:
            return "flightfull"
        eligible[place].moves.append(step)
        self.flight.append(eligible[place])
        return None

    def write(self, step, place):
        if place >= len(self.flight):
            return "noentry"
        event = self.flight[place]
        if any(older.word == event.word for older in self.flight[:place]):
            return "olderwaits"
        self.flight.pop(place).moves.append(step)
        core = self.cores[event.core]
        while core.first < len(core.persists) and is_durable(core.persists[core.first]):
            core.first += 1
        held = core.lists[event.strand % len(core.lists)]
        while held and is_durable(held[0]):
            held.pop(0)
        return None

    def move(self, step, letter, *numbers):
        """A step that no core makes."""
        return {"d": self.dispatch, "s": self.send, "w": self.write}[letter](step, *numbers)
