"""Which word of a line of a text is at fault, and what is wrong with it: what the help behind a line of fault shows.

A place is where a word begins and ends among the bytes of its line, which is given without its end. It is outside of what is
proved.
"""
import re

import assembler
import formats
from commands import near, quoted

STEPS = {b"c": "c N", b"d": "d N", b"s": "s N B J", b"w": "w J"}
DUE = {"r": "a register is due: x0 to x31, or a name as sp or a0", "n": "a number is due: decimal, or 0x and hexadecimal digits",
       "s": "a number from 0 to 262144 is due", "t": "a label or a number of bytes is due", "l": "a label is due",
       "m": "a place in memory is due, as 8(x2)"}

REACH = "an even number of bytes from"
# What fits the field of an instruction or a directive; of those that aren't here -2048 to 2047 does.
FIELDS = {**dict.fromkeys(assembler.UPPER, "0 to 1048575"), **dict.fromkeys(assembler.BRANCHES, f"{REACH} -4096 to 4094"),
          **dict.fromkeys(("j", "jal"), f"{REACH} -1048576 to 1048574"),
          **{name: f"0 to {63 if row[0] == 0x13 else 31}" for name, row in assembler.SHIFTS.items()},
          ".word": "in the code -2147483648 to 4294967295", "li": "-2147483648 to 2147483647",
          ".entry": "the number of one of the code words"}


def text_of(word):
    """A word as it may be shown."""
    return re.sub("[^ -~]", "?", word.decode("latin1"))


def told(word):
    return quoted(text_of(word))


def content_of(line):
    return line.split(b"#")[0]


def words_of(line):
    """The words of a line, each with its place."""
    return [(found.span(), found[0]) for found in re.finditer(rb"[^ \t]+", content_of(line))]


def behind(line):
    """The place behind the last word."""
    end = len(content_of(line).rstrip(b" \t"))
    return end, end + 1


def in_machine(line):
    """The fault of a line that is none of a machine file."""
    (place, key), *values = words_of(line)
    keys = [key.decode() for key in (*formats.KEYS, b"conflict")]
    if text_of(key) not in keys:
        return place, f"there is no key {told(key)}{near(text_of(key), keys)}: {', '.join(keys)} are due"
    if len(values) != 1:
        return (values[1][0], "a key has one value") if values else (behind(line), f"a value is due behind `{text_of(key)}'")
    (place, value), = values
    if key in formats.CHOICES:
        words = [word.decode() for word in formats.CHOICES[key]]
        return place, f"{told(value)} is no {text_of(key)}{near(text_of(value), words)}: {', '.join(words)} are due"
    return place, f"{told(value)} is no decimal number"


def in_schedule(line):
    """The fault of a line that is no step."""
    (place, letter), *rest = words_of(line)
    if letter not in STEPS:
        return place, f"there is no step {told(letter)}: {', '.join(STEPS.values())} are due, and perhaps `* K' behind it"
    count, form = formats.STEP_WORDS[letter], STEPS[letter]
    for place, word in rest[:count]:
        if formats.number_of(word) is None:
            return place, f"{told(word)} is no decimal number, as in `{form}'"
    if len(rest) < count:
        return behind(line), f"a number is missing, as in `{form}'"
    place, sign = rest[count]
    if sign != b"*" or len(rest) > count + 2:
        return rest[-1 if sign == b"*" else count][0], f"`{form}' is due, and perhaps `* K' behind it"
    if len(rest) == count + 1:
        return behind(line), "a number is due behind `*'"
    return rest[-1][0], f"{told(rest[-1][1])} is no decimal number"


def in_certificate(line):
    """The fault of a line that is none of a certificate, or stands behind its last one."""
    lines = "`joined E', `order E F', `match E F', `match E first', `no H F' or `no H first'"
    return of_all(line), f"{lines} is due, and nothing behind a `no'"


def of_all(line):
    """The place of all words of a line."""
    places = [place for place, _ in words_of(line)]
    return places[0][0], places[-1][1]


def parts_of(line):
    """Of a line of assembler text its first word behind the label, and its operands, each with its place."""
    content = content_of(line)
    at = content.find(b":") + 1
    first = re.compile(rb"[^ \t]+").search(content, at)
    if not first:
        return ((at, at), b""), []
    operands, at = [], first.end()
    for text in content[at:].split(b",") if content[at:].strip(b" \t") else ():
        begin = at + len(text) - len(text.lstrip(b" \t"))
        operands.append(((begin, max(begin + len(text.strip(b" \t")), begin + 1)), text.strip(b" \t")))
        at += len(text) + 1
    return (first.span(), first[0]), operands


def label_of(line):
    """The place of what stands before a line's first `:'."""
    label = content_of(line).split(b":")[0]
    return len(label) - len(label.lstrip(b" \t")), len(label)


def of_token(line):
    """The fault of a line's bytes or label, or None."""
    content = content_of(line)
    odd = re.search(rb"[^ \t!-~]", content)
    if odd:
        return odd.span(), "this character can't stand there: outside of comments a text is ASCII"
    first, second = content.find(b":"), content.find(b":", content.find(b":") + 1)
    if second > first:
        return (second, second + 1), "there is a second `:', and a line has one label"
    begin, end = label_of(line)
    if first < 0 or assembler.is_name(content[begin:end]):
        return None
    return (begin, end), f"{told(content[begin:end])} is no label: letters, digits and `_' are, and no digit comes first"


def in_text(line, kind):
    """The fault of this kind of a line of assembler text."""
    (place, first), operands = parts_of(line)
    name, due = text_of(first), assembler.FORMS.get(text_of(first), "")
    if kind == "longname":
        begin, end = label_of(line)
        return (begin, end), f"a label has at most 64 characters, and this one has {end - begin}"
    if kind == "unknownname":
        if name in assembler.FORMS:
            return place, f"`{name}' can't stand in this section: instructions are code, and `.space' is data"
        return place, f"there is no instruction or directive {told(first)}{near(name, assembler.FORMS)}"
    if kind == "missingoperand":
        missing = next((at for at, (_, text) in enumerate(operands) if not text), len(operands))
        place = operands[missing][0] if missing < len(operands) else behind(line)
        return place, DUE[due[missing]] if missing < len(due) else "no operand stands here"
    if kind == "extraoperand":
        return (operands[len(due)][0][0], operands[-1][0][1]), f"`{name}' takes {len(due) or 'no'} operand{'s' * (len(due) != 1)}"
    found = of_token(line) if kind == "badtoken" else None
    wrong = ((place, f"{DUE[form]}, and this is {told(text)}") for form, (place, text) in zip(due, operands)
             if isinstance(assembler.operand_of(form, text), str))
    return found or next(wrong)


def used_name(line):
    """The label that an instruction or `.entry` names, and its place."""
    (_, first), operands = parts_of(line)
    return next((place, text_of(text)) for form, (place, text) in zip(assembler.FORMS[text_of(first)], operands)
                if form in "tl" and assembler.number_of(text) is None)


def field_of(line):
    """The operand that a field takes, with its place, and what fits there."""
    (_, first), operands = parts_of(line)
    return *operands[-1], FIELDS.get(text_of(first), "-2048 to 2047")
