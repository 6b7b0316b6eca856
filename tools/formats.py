"""The files and the words of the program `strand`, read once more as docs/FORMATS.md and docs/program.md say.

Written from these two pages alone, and not from the program's code, so that tools/fuzz and tools/hostile compare two readings.
A reader gives the value, or raises `Refused` with the first fault and its place. It is outside of what is proved.
"""
import io
import itertools
import re
import struct
from collections import namedtuple

MOST_STEPS = 200_000
BYTES = {"machine": 4_096, "image": 8_388_608, "schedule": 16_777_216, "text": 16_777_216, "crash": 2_097_152,
         "certificate": 8_388_608}
TEXTS = ("machine", "schedule", "text", "certificate")  # in which a # begins a comment
RUN = ("MACHINE", "IMAGE", "SCHEDULE", "STOP")
COMMANDS = {"asm": ("TEXT",), "list": ("IMAGE",), "upgrade": ("IMAGE",), "run": RUN, "trace": RUN, "judge": (*RUN, "CRASH"),
            "refute": (*RUN, "CRASH"), "check": (*RUN, "CRASH", "CERT"), "again": RUN,
            **dict.fromkeys(("gen", "gen-image", "gen-schedule"), ("SEED", "SIZE"))}
KINDS = {"TEXT": "text", "MACHINE": "machine", "IMAGE": "image", "SCHEDULE": "schedule", "CRASH": "crash", "CERT": "certificate"}
PAIR, GENERATIONS = RUN[2:], 16  # `again` takes such a pair for each generation, and so many at most
GENERATED = tuple(command for command, words in COMMANDS.items() if "SEED" in words)
FILES = {command: tuple(KINDS[word] for word in words if word in KINDS) for command, words in COMMANDS.items()
         if command not in GENERATED}
CHOICES = {b"mode": (b"strict", b"epoch", b"strand"), b"conflict": (b"stall", b"tag")}
SIZES = {b"queue": 64, b"buffers": 8, b"ring": 64, b"flight": 64, b"sets": 64, b"ways": 8}
KEYS = (b"mode", *SIZES)  # those that each machine file gives
# What an image file says how many there are of, with the least and the most, by the first bytes of each version.
FIRST_QUANTITIES = (("cores", 1, 4), ("code", 1, 65_536), ("volatile", 0, 131_072), ("persistent", 1, 131_072))
QUANTITIES = (("cores", 1, 8), ("code", 1, 131_072), ("volatile", 0, 262_144), ("persistent", 1, 262_144), ("symbols", 0, 16_384),
              ("names", 0, 1_146_880))
VERSIONS = {b"STRANDP1": FIRST_QUANTITIES, b"STRANDP2": QUANTITIES}
LABEL = re.compile(rb"[A-Za-z_][A-Za-z0-9_]{0,63}")
STEP_WORDS = {b"c": 1, b"d": 1, b"s": 3, b"w": 1}
PLACES = 64  # of a buffer or in flight: J is below this
# The lines of a certificate, where N is the number of an event and H an address; and how many with words there may be.
CERTIFICATE_LINES = (b"joined N", b"order N N", b"match N N", b"match N first", b"no H N", b"no H first")
MOST_CERTIFICATE_LINES = MOST_STEPS + 1

Image = namedtuple("Image", "entries code volatile persistent symbols")
Symbol = namedtuple("Symbol", "region place name")  # the region is 0, 1 or 2: code, volatile or persistent words


class Refused(ValueError):
    """The first fault of a file: `input` or `limit`, and what stands behind the file's number in the line of fault."""

    def __init__(self, kind, *rest):
        super().__init__(kind, rest)
        self.kind, self.rest = kind, " ".join(map(str, rest))

    def __str__(self):
        return self.rest

    def status(self):
        return 8 if self.kind == "limit" else 3

    def line(self, file):
        return f"fault {self.kind} {file} {self.rest}\n".encode()


def dues_of(command, count):
    """What is due where a command is given so many words: of `again` a pair for each generation, as far as there may be so many."""
    more = -(-(count - len(RUN)) // len(PAIR)) if command == "again" else 0
    return COMMANDS[command] + PAIR * max(0, min(more, GENERATIONS - 1))


def number_of(word):
    """The number that decimal digits write, or None."""
    digits = word.lstrip(b"0") or b"0"
    return int(digits) if re.fullmatch(rb"[0-9]+", word) and len(digits) <= 20 and int(digits) < 2**64 else None


def plain_lines(data):
    """The lines, without the one carriage return that is dropped and without comments."""
    lines = io.BytesIO(data)  # which takes one line at a time out of the largest text
    for line in itertools.chain(lines, [b""] if data.endswith(b"\n") or not data else []):
        yield line.removesuffix(b"\n").removesuffix(b"\r").partition(b"#")[0]


def lines_of(data):
    """The number and the words of each line that has any."""
    for at, line in enumerate(plain_lines(data), 1):
        words = [word for word in re.split(rb"[ \t]", line) if word]
        if words:
            yield at, words


def read_machine(data):
    values, first = {}, {}
    for at, words in lines_of(data):
        key, value = words if len(words) == 2 else (None, None)
        if key in CHOICES:
            if value not in CHOICES[key]:
                raise Refused("input", "badline", at)
        elif key not in SIZES or number_of(value) is None:
            raise Refused("input", "badline", at)
        else:
            value = number_of(value)
            if not 1 <= value <= SIZES[key]:
                raise Refused("limit", "line", at, value)
        if key in first:
            raise Refused("input", "repeated", at, first[key])
        values[key], first[key] = value, at
    for key in KEYS:
        if key not in values:
            raise Refused("input", "missing", key.decode())
    return {b"conflict": b"stall", **values}


def settings_of(machine):
    """What a machine file says, in words and numbers."""
    return {key.decode(): value.decode() if isinstance(value, bytes) else value for key, value in machine.items()}


def step_of(words):
    """The letter, its numbers and how often, of a line of a schedule; or None."""
    count = STEP_WORDS.get(words[0])
    if count is None or len(words) not in (1 + count, 3 + count):
        return None
    repeated = len(words) == 3 + count
    if repeated and words[1 + count] != b"*":
        return None
    numbers = [number_of(word) for word in words[1:1 + count] + words[2 + count:]]
    return None if None in numbers else (words[0], numbers[:count], numbers[count] if repeated else 1)


def read_schedule(data, cores, buffers):
    """Its lines: a letter, its numbers, and how often."""
    limits = {b"c": [cores], b"d": [cores], b"s": [cores, buffers, PLACES], b"w": [PLACES]}
    found, steps = [], 0
    for at, words in lines_of(data):
        step = step_of(words)
        if step is None:
            raise Refused("input", "badline", at)
        letter, numbers, times = step
        for number, limit in zip(numbers, limits[letter]):
            if number >= limit:
                raise Refused("limit", "line", at, number)
        if not 1 <= times <= MOST_STEPS:
            raise Refused("limit", "line", at, times)
        steps += times
        if steps > MOST_STEPS:
            raise Refused("limit", "line", at, steps)
        found.append(step)
    return found


def is_certificate_word(kind, word):
    if kind == b"N":
        return number_of(word) is not None
    return re.fullmatch(rb"[0-9a-f]{16}", word) if kind == b"H" else word == kind


def events_of(words):
    """The events that a line of a certificate names, or None where it is no such line."""
    for line in CERTIFICATE_LINES:
        kinds = line.split()
        if len(kinds) == len(words) and all(map(is_certificate_word, kinds, words)):
            return [number_of(word) for kind, word in zip(kinds, words) if kind == b"N"]
    return None


def read_certificate(data):
    """The words of its lines."""
    found = []
    for at, words in lines_of(data):
        events = events_of(words)
        if events is None or (found and found[-1][0] == b"no"):
            raise Refused("input", "badline", at)
        for event in events:
            if event >= 2**32:
                raise Refused("limit", "line", at, event)
        found.append(words)
        if len(found) > MOST_CERTIFICATE_LINES:
            raise Refused("limit", "line", at, len(found))
    return found


def steps_in(schedule):
    """How many steps a schedule's lines stand for."""
    return sum(times for _, _, times in schedule)


def version_of(data):
    """The version that a file's first bytes name, and the quantities behind them."""
    if len(data) < 24:
        raise Refused("input", "short", 24, len(data))
    if data[:8] not in VERSIONS:
        raise Refused("input", "magic")
    quantities = VERSIONS[data[:8]]
    head = 8 + 4 * len(quantities)
    if len(data) < head:
        raise Refused("input", "short", head, len(data))
    return quantities, struct.unpack(f"<{len(quantities)}I", data[8:head])


def read_symbols(part, count, words):
    """The symbols that these bytes spell, in sections of so many words, with nothing behind them."""
    symbols, names, at = [], set(), 0
    for number in range(count):
        head = part[at:at + 6]
        region, place, length = struct.unpack("<BIB", head) if len(head) == 6 else (3, 0, 0)
        name = part[at + 6:at + 6 + length]
        symbol = Symbol(region, place, name)
        if region > 2 or len(name) < length or not LABEL.fullmatch(name) or place > words[region] or name in names or \
                (symbols and symbol <= symbols[-1]):
            raise Refused("input", "symbol", number)
        symbols.append(symbol)
        names.add(name)
        at += 6 + length
    if at < len(part):
        raise Refused("input", "symbol", count)
    return tuple(symbols)


def read_image(data):
    quantities, sizes = version_of(data)
    for (name, least, most), size in zip(quantities, sizes):
        if not least <= size <= most:
            raise Refused("limit", name, size)
    cores, code, volatile, persistent, count, names = (*sizes, 0, 0)[:6]
    words = 4 * cores + 4 * code + 8 * volatile + 8 * persistent
    head = 8 + 4 * len(quantities)
    if len(data) != head + words + names:
        raise Refused("input", "short" if len(data) < head + words + names else "long", head + words + names, len(data))
    parts = struct.unpack(f"<{cores}I{code}I{volatile}Q{persistent}Q", data[head:head + words])
    entries, rest = parts[:cores], parts[cores:]
    for core, entry in enumerate(entries):
        if entry >= code:
            raise Refused("input", "entry", core, entry)
    symbols = read_symbols(data[head + words:], count, (code, volatile, persistent))
    return Image(entries, rest[:code], rest[code:code + volatile], rest[code + volatile:], symbols)


def symbol_bytes(symbol):
    return struct.pack("<BIB", symbol.region, symbol.place, len(symbol.name)) + symbol.name


def write_image(image):
    """The image in version 2."""
    lists, names = image[:4], b"".join(map(symbol_bytes, image.symbols))
    sizes = [*map(len, image), len(names)]
    return b"STRANDP2" + struct.pack("<6I{}I{}I{}Q{}Q".format(*map(len, lists)), *sizes, *itertools.chain(*lists)) + names


def read_crash(data, words):
    if len(data) != 8 * words:
        raise Refused("input", "crashlength", 8 * words, len(data))
    return struct.unpack(f"<{words}Q", data)


def write_crash(words):
    return struct.pack(f"<{len(words)}Q", *words)
