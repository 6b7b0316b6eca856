"""What a line of fault means: what is said of it, and which word of which line it is about (tools/explain).

Files are read once more, up to their limits, for the words at fault. It is outside of what is proved.
"""
import os
import re

import commands
import formats
import marks

KINDS = {"machine": "machine file", "image": "image", "schedule": "schedule", "text": "assembler text", "crash": "crash image",
         "certificate": "certificate"}
RANGES = {"cores": "1 to 8 cores (4 in a file of version 1)", "code": "1 to 131072 code words (65536 in a file of version 1)",
          "volatile": "0 to 262144 volatile words (131072 in a file of version 1)",
          "persistent": "1 to 262144 persistent words (131072 in a file of version 1)", "symbols": "at most 16384 symbols",
          "names": "at most 1146880 bytes of symbols"}
OTHERS = {5: "the output failed before all was put", 6: "a memory module failed; the last line says which, and at what",
          7: "there was no memory", 10: "a word of the command line is not UTF-8"}
BAD_LINES = {"machine": marks.in_machine, "schedule": marks.in_schedule, "certificate": marks.in_certificate}


class Said:
    """What is said of a fault, and where there is a line to show, it and the place in it."""

    def __init__(self, message, line=None, place=None):
        self.message, self.line, self.place = message, line, place


class Call:
    """The words of a command that found a fault, with its files by their numbers."""

    def __init__(self, words):
        self.words, self.names = words, list(commands.files_of(words).values())
        self.dues = formats.dues_of(words[0], len(words) - 1)
        self.kinds = [formats.KINDS[due] for due in self.dues if due in formats.KINDS]

    def data(self, file):
        """What a file holds, up to its limit. Where there are schedules, files 0 and 1 are machine and image."""
        with open(self.names[file], "rb") as opened:
            return opened.read(formats.BYTES[self.kinds[file]])

    def line(self, file, number):
        """A line of a file without its end."""
        data, at = self.data(file), 0
        for _ in range(number - 1):
            at = data.index(b"\n", at) + 1
        end = data.find(b"\n", at)
        return data[at:end if end >= 0 else len(data)].removesuffix(b"\r")

    def limits(self):
        """The cores of the image, and the machine's buffers."""
        return formats.version_of(self.data(1)[:32])[1][0], formats.read_machine(self.data(0))[b"buffers"]

    def cut_off(self, stop):
        """The first schedule that this STOP is past."""
        schedules = [file for file, kind in enumerate(self.kinds) if kind == "schedule"]
        stops = [word for word, due in zip(self.words[1:], self.dues) if due == "STOP"]
        return next(self.names[file] for file, word in zip(schedules, stops) if word != "end" and int(word) == stop and
                    formats.steps_in(formats.read_schedule(self.data(file), *self.limits())) < stop)


def why_unread(name):
    if os.path.isdir(name):
        return "it is a folder"
    return "it can't be read" if os.path.lexists(name) else "there is no such file"


def limit_in_line(call, kind, line, number):
    """A number outside its limits in a line of a machine file, a schedule or a certificate."""
    if kind == "certificate":
        return marks.of_all(line), f"{number} is outside its limits: events are below 2^32, and 200001 lines may have words"
    if kind == "machine":
        (_, key), (place, _) = marks.words_of(line)
        return place, f"{number} is outside its limits: {key.decode()} is 1 to {formats.SIZES[key]}"
    places, words = zip(*marks.words_of(line))
    letter, numbers, times = formats.step_of(words)
    cores, buffers = call.limits()
    dues = {b"c": ("core",), b"d": ("core",), b"s": ("core", "buffer", "place"), b"w": ("place",)}[letter]
    limits = {"core": (cores, f"the image has {cores}"), "buffer": (buffers, f"a core has {buffers}"),
              "place": (formats.PLACES, f"there may be {formats.PLACES}")}
    for at, (due, value) in enumerate(zip(dues, numbers), 1):
        if value >= limits[due][0]:
            return places[at], f"there is no {due} {value}: {limits[due][1]}, counted from 0"
    most = f"a schedule has at most {formats.MOST_STEPS}"
    if times == number and not 1 <= times <= formats.MOST_STEPS:
        return places[-1], f"{number} is outside its limits: a line has one step at least, and {most}"
    return marks.of_all(line), f"up to this line there are {number} steps, and {most}"


def undefined_in_line(call, line):
    """A name that no label has, or none of the code where one of it is due."""
    place, name = marks.used_name(line)
    labels = [found.decode() for found in re.findall(rb"(?m)^[ \t]*([A-Za-z_][A-Za-z0-9_]*):", call.data(0))]
    if name in labels:
        return place, f"the label {commands.quoted(name)} stands among data, and one of the code is due"
    return place, f"no label has the name {commands.quoted(name)}{commands.near(name, labels)}"


def range_in_line(line, number):
    place, operand, fits = marks.field_of(line)
    makes = "" if operand.decode() == number else f", which makes {number},"
    return place, f"{marks.told(operand)}{makes} doesn't fit: {fits} does"


def fault_in_line(call, file, what, rest):
    """The place and the fault of a line of a file that a line of fault tells."""
    kind, line = call.kinds[file], call.line(file, int(rest[0]))
    if what == "badline":
        return line, BAD_LINES[kind](line)
    if what == "repeated":
        (place, key), *_ = marks.words_of(line)
        return line, (place, f"line {rest[1]} gave the key {marks.told(key)} before")
    if what == "duplicate":
        return line, (marks.label_of(line), f"line {rest[1]} has this label already")
    if what == "undefined":
        return line, undefined_in_line(call, line)
    if what == "range":
        return line, range_in_line(line, rest[1])
    if what == "limit":
        return line, limit_in_line(call, kind, line, int(rest[1]))
    return line, marks.in_text(line, rest[1])


def of_file(call, name, kind, what, rest):
    """What is wrong with a file as a whole."""
    if what == "missing":
        return f"no line gives the key `{rest[0]}'"
    if what == "magic":
        return "this is no image (`strand asm TEXT' makes one): it begins with neither STRANDP1 nor STRANDP2"
    if what in ("short", "long"):
        return f"too {what} for an image: {rest[1]} bytes, and its numbers want {rest[0]}"
    if what == "symbol":
        return f"symbol {rest[0]}, counted from 0, isn't whole, breaks a rule of symbols, or isn't the last"
    if what == "entry":
        return f"core {rest[0]} begins at code word {rest[1]}, which there isn't"
    if what == "crashlength":
        return f"the persistent words of {call.names[1]} take {rest[0]} bytes in a crash image, and this file has {rest[1]}"
    if what == "bytes":
        return f"a file of this kind ({KINDS[kind]}) has at most {rest[0]} bytes"
    return f"{rest[0]} is outside the limits: there may be {RANGES[what]}"


def explain(words, fault):
    """What a line of fault says, whose words are given behind `fault`."""
    call, (kind, *rest) = Call(words), fault
    if kind == "stop":
        return Said(f"STOP is {rest[0]}, and {call.cut_off(int(rest[0]))} has {rest[1]} steps")
    if kind == "bank":
        return Said(f"the image, {call.names[1]}, has {rest[0]} persistent words, and the memory modules have room for {rest[1]}")
    if rest[0] == "size":
        return Said(f"SIZE is {rest[1]}, and has to be 1 to 200000")
    file = int(rest[0]) - 1
    name = call.names[file]
    if kind == "file":
        return Said(f"{name}: {why_unread(name)}")
    what, rest = rest[1], rest[2:]
    if what in ("line", "badline", "repeated", "duplicate", "undefined", "range"):
        line, (place, message) = fault_in_line(call, file, "limit" if kind == "limit" else what, rest)
        return Said(f"{name}, line {rest[0]}: {message}", line, place)
    return Said(f"{name}: {of_file(call, name, call.kinds[file], what, rest)}")


def of_words(words):
    """The command line where its words are no command, with the word at fault."""
    found = commands.wrong_word(words)
    if not found:
        return None
    place, message = found
    before, at = " ".join(["strand", *words[:place]]), os.fsencode(" ".join(["strand", *words]))
    begin = len(os.fsencode(before)) + 1
    return Said(message, at, (begin, begin + len(os.fsencode(words[place])) if place < len(words) else begin + 1))


def said(words, status, line):
    """What is said of a call that ended with this status and put this line last, or None."""
    if status in OTHERS:
        return Said(OTHERS[status])
    if status == 2:
        return of_words(words)
    fault = line.split()
    try:
        return explain(words, fault[1:]) if fault[:1] == ["fault"] else None
    except (OSError, LookupError, ValueError, StopIteration):
        return None  # a file changed meanwhile
