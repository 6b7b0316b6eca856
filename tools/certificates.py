"""Which lines of a certificate are accepted, by docs/certificates.md and docs/persist-order.md alone.

Neither edges nor the judge nor the program have a part in it. It is outside of what is proved.
"""
import collections

import formats
import names

KINDS = ("barrier", "join", "newstrand")


class Order:
    """The direct order of a trace under a mode."""

    def __init__(self, events, mode):
        self.events, self.mode = events, mode
        self.counts, self.last_joins = [], {}  # how many of each kind the core made before an event; each core's last join
        made = collections.defaultdict(lambda: (0, 0, 0))
        for number, event in enumerate(events):
            self.counts.append(made[event.core])
            if event.kind in KINDS:
                made[event.core] = tuple(count + (kind == event.kind) for kind, count in zip(KINDS, made[event.core]))
            if event.kind == "join":
                self.last_joins[event.core] = number

    def is_persist(self, number):
        return number < len(self.events) and self.events[number].persist is not None

    def is_joined(self, number):
        return self.is_persist(number) and number < self.last_joins.get(self.events[number].core, 0)

    def rule(self, first, second):
        """Why the first event comes directly before the second: `word`, `core`, `barrier` or `join`; or None where it doesn't."""
        one, other = (self.events[number] if number < len(self.events) else None for number in (first, second))
        if first >= second or None in (one, other) or None in (one.word, other.word):
            return None
        if one.word == other.word and "store" in (one.kind, other.kind):
            return "word"
        if one.core != other.core:
            return None
        if self.mode == "strict":
            return "core"
        barriers, joins, strands = (after - before for before, after in zip(self.counts[first], self.counts[second]))
        if joins:
            return "join"
        return "barrier" if barriers and (self.mode == "epoch" or not strands) else None


class Words:
    """The persistent words by their addresses."""

    def __init__(self, words):
        self.words = words

    def __contains__(self, address):
        return address % 8 == 0 and 0 <= (address - names.BASES[2]) // 8 < len(self.words)

    def __getitem__(self, address):
        return self.words[(address - names.BASES[2]) // 8]


class Certified:
    """The persistent words before the run and after the crash; and for each word the first persist with the value found."""

    def __init__(self, order, initial, crash):
        self.order = order
        self.initial, self.found = (Words(words) for words in (initial, formats.read_crash(crash, len(initial))))
        self.first, self.later = {}, {}
        for number in range(len(order.events) - 1, -1, -1):
            event = order.events[number]
            if event.persist is not None:
                if event.word not in self.found:
                    raise ValueError(f"event {number} of the trace is no store to a word of the image")
                self.later[number] = self.first.get(event.word)
                if event.value == self.found[event.word]:
                    self.first[event.word] = number

    def asks(self, word, after, needed):
        """Whether the word changed, `first` or after a needed persist; and the first persist that could have done it, or None."""
        if after == b"first":
            return self.initial[word] != self.found[word], self.first.get(word)
        number = formats.number_of(after)
        event = self.order.events[number] if number in needed and self.order.is_persist(number) else None
        return event is not None and event.word == word and event.value != self.found[word], self.later.get(number)

    def is_accepted(self, words, needed):
        """Whether a line is, where these events are needed."""
        kind, *rest = words
        if kind == b"no":
            word = int(rest[0], 16)
            return word in self.found and self.asks(word, rest[1], needed) == (True, None)
        number, *after = formats.events_of(words)
        if number in needed or kind == b"joined":
            return number not in needed and self.order.is_joined(number)
        if kind == b"order":
            return after[0] in needed and self.order.rule(number, after[0]) is not None
        return self.order.is_persist(number) and self.asks(self.order.events[number].word, rest[1], needed) == (True, number)

    def rejected(self, lines):
        """The number of the first line that isn't accepted, or one more than there are where the last is no `no`; else 0."""
        needed = set()
        for number, words in enumerate(lines, 1):
            if not self.is_accepted(words, needed):
                return number
            if words[0] == b"no":
                return 0
            needed.add(formats.number_of(words[1]))
        return len(lines) + 1
