"""Logs for pipeline viewers, read by the forms of docs/FORMATS.md: what tools/check-tools compares with the run.

Each reader gives of each row its number, its core, its text, and the steps at which it entered a stage, and a ValueError where a line
is none of the form.
"""
import re

KONATA = {"I": 4, "L": 4, "S": 4, "E": 4, "R": 4, "W": 4, "C": 2}  # words of each line
O3_STAGES = ("fetch", "decode", "rename", "dispatch", "issue", "complete", "retire")


def refused(line):
    raise ValueError(line)


class Konata:
    """The state of a reader of Konata's log. A stage that is open has to end; a row that has retired is closed."""

    def __init__(self):
        self.cycle, self.rows, self.texts, self.open, self.ends = 0, {}, {}, {}, {}

    def line(self, line):
        kind, *rest = line.split("\t")
        if KONATA.get(kind) != 1 + len(rest):
            refused(line)
        if kind == "C":
            self.cycle += int(rest[0])
        elif kind == "I":
            if int(rest[0]) != len(self.rows):
                refused(line)
            self.rows[int(rest[0])] = (int(rest[1]), int(rest[2]), [])
        elif int(rest[0]) not in self.rows or (kind != "W" and int(rest[0]) in self.ends):
            refused(line)
        else:
            self.of_row(kind, int(rest[0]), rest[1:], line)

    def of_row(self, kind, row, rest, line):
        if kind == "L":
            self.texts.setdefault(row, rest[1])
        elif kind == "S":
            if row in self.open:
                refused(line)
            self.open[row] = rest[1]
            self.rows[row][2].append(self.cycle)
        elif kind == "E":
            if self.open.pop(row, None) != rest[1]:
                refused(line)
        elif kind == "R":
            self.ends[row] = None if rest[1] == "1" else self.cycle
        elif int(rest[0]) not in self.rows:
            refused(line)


def read_konata(text):
    lines = text.splitlines()
    if lines[:2] != ["Kanata\t0004", "C=\t0"]:
        refused(lines[:2])
    reader = Konata()
    for line in lines[2:]:
        reader.line(line)
    if reader.open or set(reader.ends) != set(reader.rows):
        refused("a row has no end")
    return [(number, core, reader.texts[row], [*steps, *([reader.ends[row]] if reader.ends[row] else [])])
            for row, (number, core, steps) in reader.rows.items()]


def read_o3(text):
    lines, found = text.splitlines(), []
    if len(lines) % len(O3_STAGES):
        refused("a record isn't whole")
    for at in range(0, len(lines), len(O3_STAGES)):
        fields = [line.split(":") for line in lines[at:at + len(O3_STAGES)]]
        if [field[:2] for field in fields] != [["O3PipeView", stage] for stage in O3_STAGES] or len(fields[0]) != 7 or len(fields[6]) != 5:
            refused(lines[at])
        times = [int(field[2]) for field in fields]
        if any(time % 1000 for time in times) or not re.fullmatch("0x[0-9a-f]{8}", fields[0][3]):
            refused(lines[at])
        steps = [time // 1000 for time in (times[0], times[3], times[4], times[5]) if time]
        found.append((int(fields[0][5]), int(fields[0][6].split()[1]), fields[0][6], steps))
    return found
