"""Assembler texts and listings, read and written once more as docs/assembler.md says.

Written from that page, docs/steps.md and the RISC-V manual alone, so that tools/fuzz compares two readings. It is outside of what is
proved.
"""
import re
from collections import namedtuple

import names
from formats import QUANTITIES, Image, Refused, Symbol, number_of as decimal_of, plain_lines

NAME = re.compile(rb"[A-Za-z_][A-Za-z0-9_]*")
SECTIONS = ("code", "volatile", "persist")
BASES = dict(zip(SECTIONS, names.BASES))
NAMES = [b"zero", b"ra", b"sp", b"gp", b"tp", *(b"t%d" % n for n in range(3)), b"s0", b"s1", *(b"a%d" % n for n in range(8)),
         *(b"s%d" % n for n in range(2, 12)), *(b"t%d" % n for n in range(3, 7))]
REGISTERS = {**{b"x%d" % n: n for n in range(32)}, **{name: n for n, name in enumerate(NAMES)}, b"fp": 8}

# The opcode, funct3 and, where there is one, funct7 of each instruction, by the form of its operands.
BRANCHES = {"beq": 0, "bne": 1, "blt": 4, "bge": 5, "bltu": 6, "bgeu": 7}
LOADS = {"lb": 0, "lh": 1, "lw": 2, "ld": 3, "lbu": 4, "lhu": 5, "lwu": 6}
STORES = {"sb": 0, "sh": 1, "sw": 2, "sd": 3}
WITH_NUMBER = {"addi": (0x13, 0), "slti": (0x13, 2), "sltiu": (0x13, 3), "xori": (0x13, 4), "ori": (0x13, 6), "andi": (0x13, 7),
               "addiw": (0x1B, 0)}
SHIFTS = {"slli": (0x13, 1, 0), "srli": (0x13, 5, 0), "srai": (0x13, 5, 0x20), "slliw": (0x1B, 1, 0), "srliw": (0x1B, 5, 0),
          "sraiw": (0x1B, 5, 0x20)}
OF_REGISTERS = {"add": (0x33, 0, 0), "sub": (0x33, 0, 0x20), "sll": (0x33, 1, 0), "slt": (0x33, 2, 0), "sltu": (0x33, 3, 0),
                "xor": (0x33, 4, 0), "srl": (0x33, 5, 0), "sra": (0x33, 5, 0x20), "or": (0x33, 6, 0), "and": (0x33, 7, 0),
                "addw": (0x3B, 0, 0), "subw": (0x3B, 0, 0x20), "sllw": (0x3B, 1, 0), "srlw": (0x3B, 5, 0), "sraw": (0x3B, 5, 0x20)}
PLAIN = {"fence": 0x0FF0000F, "ecall": 0x73, "ebreak": 0x100073, "persistbarrier": 0x0B, "newstrand": 0x100B, "joinstrand": 0x200B,
         "nop": 0x13, "ret": 0x00008067}
UPPER = {"lui": 0x37, "auipc": 0x17}
# What operands are due: r a register, n a number, s that of `.space`, t a target, l the label of `la`, m memory.
FORMS = {**dict.fromkeys((".code", ".volatile", ".persist"), ""), ".entry": "t", ".word": "n", ".space": "s",
         **dict.fromkeys(UPPER, "rn"), "li": "rn", "la": "rl", "mv": "rr", "j": "t", "jal": "rt", "jalr": "rm",
         **dict.fromkeys([*LOADS, *STORES], "rm"), **dict.fromkeys(BRANCHES, "rrt"), **dict.fromkeys([*WITH_NUMBER, *SHIFTS], "rrn"),
         **dict.fromkeys(OF_REGISTERS, "rrr"), **dict.fromkeys(PLAIN, "")}

# A line: its label, its first word, its operands; each may be missing.
Line = namedtuple("Line", "label first operands")
Label = namedtuple("Label", "section place address line")


def number_of(word):
    """The number that is written, or None."""
    if re.fullmatch(rb"0x[0-9A-Fa-f]+", word):
        number = int(word[2:], 16)
        return number if number < 2**64 else None
    number = decimal_of(word.removeprefix(b"-"))
    if number is None or not word.startswith(b"-"):
        return number
    return -number if number <= 2**63 else None


def is_name(word):
    return NAME.fullmatch(word) is not None


def memory_of(word):
    """The number and the register, or the fault."""
    if word.count(b"(") != 1 or word.count(b")") != 1 or not word.endswith(b")") or re.search(rb"[ \t]", word):
        return "badtoken"
    number, register = word[:-1].split(b"(")
    number = number_of(number) if number else 0
    if number is None:
        return "badnumber"
    return (number, REGISTERS[register]) if register in REGISTERS else "badregister"


def operand_of(form, word):
    """The operand's value, or its fault, which is a `str`."""
    if form == "r":
        return REGISTERS.get(word, "badregister")
    if form == "m":
        return memory_of(word)
    number = number_of(word)
    if form == "l" or (form == "t" and number is None):
        return word if is_name(word) else "badtoken" if form == "l" else "badnumber"
    return "badnumber" if number is None or (form == "s" and not 0 <= number <= 262_144) else number


def read_line(line):
    """The parts of a line without its comment, or the fault, which is a `str`."""
    label, colon, rest = line.partition(b":")
    if re.search(rb"[^ \t!-~]", line) or b":" in rest or (colon and not is_name(label.lstrip(b" \t"))):
        return "badtoken"
    label, rest = (label.lstrip(b" \t"), rest) if colon else (None, line)
    if label is not None and len(label) > 64:
        return "longname"
    rest = rest.strip(b" \t")
    if not rest:
        return Line(label, None, ())
    first, *behind = re.split(rb"[ \t]+", rest, maxsplit=1)
    first = first.decode()
    if first not in FORMS:
        return "unknownname"
    words = [word.strip(b" \t") for word in behind[0].split(b",")] if behind else []
    if len(words) < len(FORMS[first]) or not all(words):
        return "missingoperand"
    if len(words) > len(FORMS[first]):
        return "extraoperand"
    operands = [operand_of(form, word) for form, word in zip(FORMS[first], words)]
    return next((operand for operand in operands if isinstance(operand, str)), Line(label, first, operands))


def words_in(line):
    """How many words the line makes."""
    if line.first in (".code", ".volatile", ".persist", ".entry", None):
        return 0
    if line.first == ".space":
        return line.operands[0]
    return 2 if line.first == "la" or (line.first == "li" and not -2_048 <= line.operands[1] < 2_048) else 1


class Draft:
    """A text after its first pass: its lines, each with its number, its section and the words of the section before it."""

    def __init__(self, data):
        self.lines, self.labels, self.entries = [], {}, 0
        self.sizes = dict.fromkeys(BASES, 0)
        section = "code"
        for at, text in enumerate(plain_lines(data), 1):
            line = read_line(text)
            if isinstance(line, str):
                raise Refused("input", "line", at, line)
            if line.first == ".space" and section == "code" or \
                    (line.first and not line.first.startswith(".") and section != "code"):
                raise Refused("input", "line", at, "unknownname")
            before = self.sizes[section]
            if line.label is not None:
                if line.label in self.labels:
                    raise Refused("input", "duplicate", at, self.labels[line.label].line)
                width = names.WIDTHS[SECTIONS.index(section)]
                self.labels[line.label] = Label(section, before, BASES[section] + width * before, at)
            if line.first:
                self.lines.append((at, section, before, line))
            self.sizes[section] = before + words_in(line)
            self.entries += line.first == ".entry"
            if line.first in (".code", ".volatile", ".persist"):
                section = line.first[1:]
        sizes = [self.entries or 1, *self.sizes.values(), len(self.labels)]
        for (name, least, most), size in zip(QUANTITIES, sizes):
            if not least <= size <= most:
                raise Refused("limit", name, size)


def within(at, value, low, high, even=False):
    if not low <= value <= high or (even and value % 2):
        raise Refused("input", "range", at, value)
    return value


def placed(draft, at, name, code):
    label = draft.labels.get(name)
    if label is None or (code and label.section != "code"):
        raise Refused("input", "undefined", at)
    return label.address


def register_word(row, rd, first, second):
    opcode, funct3, funct7 = row
    return funct7 << 25 | second << 20 | first << 15 | funct3 << 12 | rd << 7 | opcode


def number_word(opcode, funct3, rd, base, value):
    return value % 4_096 << 20 | base << 15 | funct3 << 12 | rd << 7 | opcode


def branch_word(funct3, first, second, offset):
    field = offset % 8_192
    return (field >> 12) << 31 | (field >> 5 & 63) << 25 | second << 20 | first << 15 | funct3 << 12 | (field >> 1 & 15) << 8 | \
        (field >> 11 & 1) << 7 | 0x63


def jump_word(rd, offset):
    field = offset % 2_097_152
    return (field >> 20) << 31 | (field >> 1 & 1_023) << 21 | (field >> 11 & 1) << 20 | (field >> 12 & 255) << 12 | rd << 7 | 0x6F


def pair(rd, value):
    """lui and addiw"""
    low = (value + 2_048) % 4_096 - 2_048
    return [(value - low) // 4_096 % 2**20 << 12 | rd << 7 | 0x37, number_word(0x1B, 0, rd, rd, low)]


def code_of(draft, at, before, name, operands):
    """The code words of an instruction or of `.word`."""
    def offset(target, reach):
        if isinstance(target, bytes):
            target = placed(draft, at, target, True) - BASES["code"] - 4 * before
        return within(at, target, -reach, reach - 2, True)

    if name in PLAIN:
        return [PLAIN[name]]
    if name == ".word":
        return [within(at, operands[0], -2**31, 2**32 - 1) % 2**32]
    if name in UPPER:
        return [within(at, operands[1], 0, 2**20 - 1) << 12 | operands[0] << 7 | UPPER[name]]
    if name in ("j", "jal"):
        return [jump_word(operands[0] if name == "jal" else 0, offset(operands[-1], 2**20))]
    if name in BRANCHES:
        return [branch_word(BRANCHES[name], operands[0], operands[1], offset(operands[2], 4_096))]
    if name in STORES:
        number, base = operands[1]
        field = within(at, number, -2_048, 2_047) % 4_096
        return [register_word((0x23, STORES[name], field >> 5), field & 31, base, operands[0])]
    if name in LOADS or name == "jalr":
        number, base = operands[1]
        opcode, funct3 = (0x67, 0) if name == "jalr" else (0x03, LOADS[name])
        return [number_word(opcode, funct3, operands[0], base, within(at, number, -2_048, 2_047))]
    if name in SHIFTS:
        opcode, funct3, funct7 = SHIFTS[name]
        number = within(at, operands[2], 0, 63 if opcode == 0x13 else 31)
        return [number_word(opcode, funct3, operands[0], operands[1], number | funct7 << 5)]
    if name in OF_REGISTERS:
        return [register_word(OF_REGISTERS[name], *operands)]
    if name == "la":
        return pair(operands[0], placed(draft, at, operands[1], False))
    if name == "li" and not -2_048 <= operands[1] < 2_048:
        return pair(operands[0], within(at, operands[1], -2**31, 2**31 - 1))
    opcode, funct3 = WITH_NUMBER.get(name, (0x13, 0))
    rd, base, number = {"li": lambda: (operands[0], 0, operands[1]), "mv": lambda: (*operands, 0)}.get(name, lambda: operands)()
    return [number_word(opcode, funct3, rd, base, within(at, number, -2_048, 2_047))]


def assemble(data):
    """The image of a text, or its first fault."""
    draft = Draft(data)
    symbols = sorted(Symbol(SECTIONS.index(label.section), label.place, name) for name, label in draft.labels.items())
    image = Image([], [], [], [], symbols)
    data_words = {"volatile": image.volatile, "persist": image.persistent}
    for at, section, before, line in draft.lines:
        name, operands = line.first, line.operands
        if name == ".entry":
            entry = operands[0]
            if isinstance(entry, bytes):
                entry = (placed(draft, at, entry, True) - BASES["code"]) // 4
            image.entries.append(within(at, entry, 0, draft.sizes["code"] - 1))
        elif name == ".space":
            data_words[section].extend([0] * operands[0])
        elif name == ".word" and section != "code":
            data_words[section].append(operands[0] % 2**64)
        elif words_in(line):
            image.code.extend(code_of(draft, at, before, name, operands))
    return image._replace(entries=image.entries or [0])


def signed(value, bits):
    return value - (value >> bits - 1 << bits)


NAMED = {**{(0x63, row): name for name, row in BRANCHES.items()}, **{(0x03, row): name for name, row in LOADS.items()},
         **{(0x23, row): name for name, row in STORES.items()}, **{row: name for name, row in WITH_NUMBER.items()}}
SHIFTED = {row: name for name, row in SHIFTS.items()}
REGISTERED = {row: name for name, row in OF_REGISTERS.items()}
WHOLE = {word: name for name, word in PLAIN.items() if name not in ("nop", "ret")}


def text_of(word):
    """The text of an instruction, or None."""
    opcode, rd, funct3, rs1, rs2, funct7 = word & 127, word >> 7 & 31, word >> 12 & 7, word >> 15 & 31, word >> 20 & 31, word >> 25
    name, number = NAMED.get((opcode, funct3)), signed(word >> 20, 12)
    if word in WHOLE:
        return WHOLE[word]
    if opcode in (0x37, 0x17):
        return f"{'lui' if opcode == 0x37 else 'auipc'} x{rd}, {word >> 12:#x}"
    if opcode == 0x6F:
        offset = signed((word >> 31) << 20 | (word >> 12 & 255) << 12 | (word >> 20 & 1) << 11 | (word >> 21 & 1_023) << 1, 21)
        return f"jal x{rd}, {offset}"
    if opcode == 0x67 and funct3 == 0:
        return f"jalr x{rd}, {number}(x{rs1})"
    if opcode == 0x63 and name:
        offset = signed((word >> 31) << 12 | (word >> 7 & 1) << 11 | (word >> 25 & 63) << 5 | (word >> 8 & 15) << 1, 13)
        return f"{name} x{rs1}, x{rs2}, {offset}"
    if opcode == 0x03 and name:
        return f"{name} x{rd}, {number}(x{rs1})"
    if opcode == 0x23 and name:
        return f"{name} x{rs2}, {signed(funct7 << 5 | rd, 12)}(x{rs1})"
    if opcode in (0x13, 0x1B) and name:
        return f"{name} x{rd}, x{rs1}, {number}"
    kind = (opcode, funct3, funct7 & 126 if opcode == 0x13 else funct7)
    if kind in SHIFTED:
        return f"{SHIFTED[kind]} x{rd}, x{rs1}, {word >> 20 & (63 if opcode == 0x13 else 31)}"
    if kind in REGISTERED:
        return f"{REGISTERED[kind]} x{rd}, x{rs1}, x{rs2}"
    return None


def data_lines(words, named):
    """The lines of data words, with names before the words at their places; a run of zeros ends before a name."""
    at = 0
    while at < len(words):
        yield from named.get(at, ())
        behind = at
        while behind < len(words) and words[behind] == 0 and (behind == at or behind not in named):
            behind += 1
        if behind > at:
            yield f".space {behind - at}"
            at = behind
        else:
            yield f".word 0x{words[at]:016x}"
            at += 1
    yield from named.get(at, ())


def code_lines(words, named):
    for at, word in enumerate(words):
        yield from named.get(at, ())
        yield text_of(word) or f".word 0x{word:08x}"
    yield from named.get(len(words), ())


def listing(image):
    lines = [f".entry {entry}" for entry in image.entries]
    parts = (code_lines, image.code), (data_lines, image.volatile), (data_lines, image.persistent)
    for region, (lines_of, words) in enumerate(parts):
        named = {}
        for symbol in image.symbols:
            if symbol.region == region:
                named.setdefault(symbol.place, []).append(f"{symbol.name.decode()}:")
        lines += [f".{SECTIONS[region]}", *lines_of(words, named)]
    return "".join(line + "\n" for line in lines).encode()
