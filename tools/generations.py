"""The runs that `strand again` makes, one for each generation, as tools/timeline draws them.

Each is asked for as a run of the image with the words that the one before left, and compared with what `again` puts of it. It is outside
of what is proved.
"""
import os
import tempfile

import assembler
import formats
import inputs
import replay
import runs

MOST_WORDS = 8  # that are told of a generation
SKIPPED = (b"reg ", b"vis ")


def reports_of(lines):
    """The lines of each generation, without its first."""
    found = []
    for line in lines:
        if line.startswith("generation "):
            found.append([])
        else:
            found[-1].append(line)
    return found


def words_in(report, count):
    """So many persistent words that a report's `pm` lines tell."""
    words = [0] * count
    for _, address, value in (line.split() for line in report if line.startswith("pm ")):
        words[(int(address, 16) - assembler.BASES["persist"]) // 8] = int(value, 16)
    return words


def left(run):
    """What a generation left, in words."""
    held = [(place, word) for place, word in enumerate(words_in(run.told, len(run.image.persistent))) if word]
    names = [f"{run.names.short(assembler.BASES['persist'] + 8 * place)} = 0x{word:x}" for place, word in held[:MOST_WORDS]]
    return f"leaves {', '.join(names) or 'zeros'}{' ..' if len(held) > MOST_WORDS else ''}"


def replayed(program, machine, image, pairs, most):
    """The run of each pair SCHEDULE STOP, replayed."""
    told = reports_of(runs.ask(program, "again", machine, image, *pairs, skipped=SKIPPED))
    found, start = [], inputs.read("image", image)
    with tempfile.TemporaryDirectory() as folder:
        for number, (schedule, stop, report) in enumerate(zip(pairs[::2], pairs[1::2], told), 1):
            name = os.path.join(folder, "image")
            with open(name, "wb") as file:
                file.write(formats.write_image(start))
            if runs.ask(program, "run", machine, name, schedule, stop, skipped=SKIPPED) != report[:-1]:
                inputs.stop(f"generation {number} isn't the run from the words that the one before left")
            run = replay.Run(program, machine, name, schedule, stop, most)
            replay.replay(run)
            run.words, run.told = (machine, image, schedule), report
            found.append(run)
            start = start._replace(persistent=words_in(report, len(start.persistent)))
    return found
