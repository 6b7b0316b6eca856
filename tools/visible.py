"""What the cores of a run saw and did, read once more as docs/steps.md and docs/cache.md say.

The instructions that the cores retired are executed one by one, and their accesses are looked up in caches. Written from these pages
alone, so that tools/fuzz and tools/hostile compare two readings. It is outside of what is proved.
"""
import functools
import re

import assembler

WORD, HALF = 2**64, 2**32
LINE = 64  # bytes
SIZES = {"b": 1, "h": 2, "w": 4, "d": 8}
EVENTS = {"persistbarrier": "barrier", "newstrand": "newstrand", "joinstrand": "join"}  # of those that are no accesses or outputs


def signed(value):
    return assembler.signed(value % WORD, 64)


def low_half(value):
    """The low 32 bits with their sign carried on."""
    return assembler.signed(value % HALF, 32)


# What is computed of two registers, or of a register and a number; each is taken modulo 2^64.
COMPUTED = {
    "add": lambda a, b: a + b, "sub": lambda a, b: a - b, "xor": lambda a, b: a ^ b, "or": lambda a, b: a | b, "and": lambda a, b: a & b,
    "slt": lambda a, b: signed(a) < signed(b), "sltu": lambda a, b: a < b,
    "sll": lambda a, b: a << b % 64, "srl": lambda a, b: a >> b % 64, "sra": lambda a, b: signed(a) >> b % 64,
    "addw": lambda a, b: low_half(a + b), "subw": lambda a, b: low_half(a - b), "sllw": lambda a, b: low_half(a << b % 32),
    "srlw": lambda a, b: low_half(a % HALF >> b % 32), "sraw": lambda a, b: low_half(a) >> b % 32}
TAKEN = {
    "beq": lambda a, b: a == b, "bne": lambda a, b: a != b, "blt": lambda a, b: signed(a) < signed(b),
    "bge": lambda a, b: signed(a) >= signed(b), "bltu": lambda a, b: a < b, "bgeu": lambda a, b: a >= b}
WITH_NUMBER = {name: name.replace("i", "", 1) for name in (*assembler.WITH_NUMBER, *assembler.SHIFTS)}


@functools.lru_cache(None)
def decoded(word):
    """The name of an instruction and the numbers of its operands, or None. A fence has no text but in one spelling."""
    name, _, operands = ("fence" if word & 0x707F == 0x0F else assembler.text_of(word) or "").partition(" ")
    return (name, *(int(number, 0) for number in re.findall(r"-?(?:0x[0-9a-f]+|[0-9]+)", operands))) if name else None


class Trapped(Exception):
    """An instruction that ends its core, and which changes nothing."""


class Core:
    def __init__(self, entry):
        self.pc, self.registers, self.life = assembler.BASES["code"] + 4 * entry, [0] * 32, "running"

    def put(self, register, value):
        if register:
            self.registers[register] = value % WORD


class Caches:
    """The lines that each core holds, by sets, the most recently accessed first; and its hits and misses."""

    def __init__(self, cores, sets, ways):
        self.sets, self.ways = sets, ways
        self.held = [[[] for _ in range(sets)] for _ in range(cores)]
        self.counts = [[0, 0] for _ in range(cores)]

    def access(self, core, address, is_store):
        line = address // LINE
        rows = [held[line % self.sets] for held in self.held]
        hits = line in rows[core]
        self.counts[core][not hits] += 1
        for other, row in enumerate(rows):
            if line in row and (other == core or is_store):
                row.remove(line)
        rows[core][:] = [line, *rows[core]][:self.ways]


class Visible:
    """The cores, the memory that they see, what they put out, and their caches."""

    def __init__(self, image, sets, ways):
        self.code = image.code
        self.cores = [Core(entry) for entry in image.entries]
        self.memory = {"volatile": list(image.volatile), "persist": list(image.persistent)}
        self.outs = []
        self.caches = Caches(len(self.cores), sets, ways)

    def retire(self, number):
        """One instruction of a core."""
        core = self.cores[number]
        try:
            core.pc = self.execute(number, core, *self.fetched(core.pc)) % WORD
        except Trapped as trap:
            core.life = f"trap {trap}"

    def fetched(self, pc):
        place = (pc - assembler.BASES["code"]) // 4
        if pc % 4 or not 0 <= place < len(self.code):
            raise Trapped("fetch")
        found = decoded(self.code[place])
        if found is None:
            raise Trapped("illegal")
        return found

    def next_event(self, number):
        """The kind of the event that a core's next instruction makes, and the address of an access; or None."""
        core = self.cores[number]
        try:
            name, *operands = self.fetched(core.pc)
            if name in assembler.LOADS or name in assembler.STORES:
                address = (core.registers[operands[2]] + operands[1]) % WORD
                self.region_of(address, SIZES[name[1]])
                return "store" if name in assembler.STORES else "load", address
        except Trapped:
            return None
        return (EVENTS[name], None) if name in EVENTS else None

    def execute(self, number, core, name, *operands):
        """Does it, and gives the next program counter."""
        if name in ("jal", "jalr") or name in TAKEN:
            return self.jump(core, name, *operands)
        if name in assembler.LOADS or name in assembler.STORES:
            self.move(number, core, name, *operands)
        elif name in ("lui", "auipc"):
            core.put(operands[0], low_half(operands[1] << 12) + (core.pc if name == "auipc" else 0))
        elif name in WITH_NUMBER:
            core.put(operands[0], COMPUTED[WITH_NUMBER[name]](core.registers[operands[1]], operands[2] % WORD))
        elif name in COMPUTED:
            core.put(operands[0], COMPUTED[name](core.registers[operands[1]], core.registers[operands[2]]))
        elif name == "ebreak" or (name == "ecall" and core.registers[17] == 0):
            core.life = "halted"
            return core.pc
        elif name == "ecall":
            if core.registers[17] != 1:
                raise Trapped(f"call {core.registers[17]:016x}")
            self.outs.append((number, core.registers[10]))
        return core.pc + 4

    @staticmethod
    def jump(core, name, *operands):
        if name == "jal":
            target, link = core.pc + operands[1], operands[0]
        elif name == "jalr":
            target, link = (core.registers[operands[2]] + operands[1]) & ~1, operands[0]
        else:
            is_taken = TAKEN[name](core.registers[operands[0]], core.registers[operands[1]])
            target, link = core.pc + (operands[2] if is_taken else 4), 0
        if target % 4:
            raise Trapped(f"target {target % WORD:016x}")
        core.put(link, core.pc + 4)
        return target

    def region_of(self, address, size):
        """The words that hold the bytes, and the place there."""
        if address % size:
            raise Trapped(f"misaligned {address:016x}")
        for region, words in self.memory.items():
            place = (address - assembler.BASES[region]) // 8
            if 0 <= place < len(words):
                return words, place
        raise Trapped(f"access {address:016x}")

    def move(self, number, core, name, register, offset, base):
        """A load or a store."""
        size, is_store = SIZES[name[1]], name in assembler.STORES
        address = (core.registers[base] + offset) % WORD
        words, place = self.region_of(address, size)
        shift, mask = address % 8 * 8, 2**(8 * size) - 1
        if is_store:
            words[place] = words[place] & ~(mask << shift) | (core.registers[register] & mask) << shift
        else:
            value = words[place] >> shift & mask
            core.put(register, value if name.endswith("u") else assembler.signed(value, 8 * size))
        self.caches.access(number, address, is_store)

    def core_lines(self):
        for number, core in enumerate(self.cores):
            yield f"core {number} pc {core.pc:016x} {core.life}"
            yield from (f"reg {number} x{register} {value:016x}" for register, value in enumerate(core.registers) if value)

    def out_lines(self):
        return [f"out {number} {value:016x}" for number, value in self.outs]

    def word_lines(self):
        return [f"vis {assembler.BASES[region] + 8 * place:016x} {value:016x}"
                for region, words in self.memory.items() for place, value in enumerate(words) if value]

    def cache_lines(self):
        return [f"cache {number} hits {hits} misses {misses}" for number, (hits, misses) in enumerate(self.caches.counts)]
