"""The generator's machine, image and schedule, once more as docs/FORMATS.md says. It is outside of what is proved."""
import itertools

import assembler
import formats

MACHINE = b"mode strand\nqueue 16\nbuffers 2\nring 8\nflight 4\nsets 4\nways 2\n"
SIZE = 200_000  # at most, and 1 at least


def draws(seed):
    """A function that draws a number below a limit."""
    state = seed or 1

    def draw(limit):
        nonlocal state
        state = (state ^ state << 13) % 2**64
        state ^= state >> 7
        state = (state ^ state << 17) % 2**64
        return state % limit
    return draw


def drawn_word(draw):
    kind = draw(10)
    if kind < 4:
        return f"sd x1, {8 * draw(64)}(x2)"
    if kind == 9:
        return "joinstrand" if draw(4) == 0 else "newstrand"
    return {4: lambda: "addi x1, x1, 1", 5: lambda: f"ld x4, {8 * draw(64)}(x2)", 6: lambda: f"sd x1, {8 * draw(16)}(x3)",
            7: lambda: f"ld x4, {8 * draw(16)}(x3)", 8: lambda: "persistbarrier"}[kind]()


def image(seed):
    draw = draws(seed)
    lines = [".entry 0", ".entry 66"]
    for _ in range(2):
        lines += ["lui x2, 0x40000", "lui x3, 0x20000", *(drawn_word(draw) for _ in range(63)), "jal x0, -252"]
    text = "\n".join(lines + [".volatile", ".space 16", ".persist", ".space 64"])
    return formats.write_image(assembler.assemble(text.encode()))


def schedule(seed, size):
    """The printed text, with one line for each longest run of equal steps."""
    draw = draws(seed)
    steps = []
    for _ in range(size):
        kind = draw(4)
        steps.append(" ".join(["cdsw"[kind], *(str(draw(limit)) for limit in ((2,), (2,), (2, 2, 2), (4,))[kind])]))
    runs = ((step, len(list(run))) for step, run in itertools.groupby(steps))
    return "".join(f"{step} * {count}\n" if count > 1 else f"{step}\n" for step, count in runs).encode()
