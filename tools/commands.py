"""The words of a command of the program `strand`: which of them are files, and which is none that a command has there.

tools/first-call and tools/explain share it. It is outside of what is proved.
"""
import difflib
import os

import formats


LONGEST = 40  # characters of a word that are told


def quoted(word):
    return f"`{word[:LONGEST]}{'..' * (len(word) > LONGEST)}'"


def near(word, words):
    """A question that names the word which was perhaps meant."""
    found = difflib.get_close_matches(word[:LONGEST], words, 1)
    return f" ({quoted(found[0])}?)" if found else ""


def files_of(words):
    """The names of a command's files, by their places among the words."""
    dues = enumerate(zip(words[1:], formats.dues_of(words[0], len(words) - 1)), 1)
    return {place: word for place, (word, due) in dues if due in formats.KINDS}


def form_of(command):
    """The words behind a command, as they are told."""
    more = f" .. (1 to {formats.GENERATIONS} pairs {' '.join(formats.PAIR)})" if command == "again" else ""
    return " ".join(formats.COMMANDS[command]) + more


def fault_of(word, due):
    """What is wrong with a word where a file, a number or a STOP is due, or nothing."""
    if due in formats.KINDS or (due == "STOP" and word == "end") or formats.number_of(os.fsencode(word)) is not None:
        return ""
    end = "`end' or " if due == "STOP" else ""
    return f"{due} is {quoted(word)}, and {end}decimal digits are due, for a number below 2^64"


def wrong_word(words):
    """The place of the first wrong word and what is wrong, where the words are no command; else None."""
    if not words or words[0] not in formats.COMMANDS:
        given = f"there is no command {quoted(words[0])}{near(words[0], formats.COMMANDS)}" if words else "a command is due"
        return 0, f"{given}: `strand --help' tells all"
    dues, given = formats.dues_of(words[0], len(words) - 1), words[1:]
    takes = f"`{words[0]}' takes {form_of(words[0])}"
    if len(given) < len(dues):
        return len(words), f"{takes}, and {dues[len(given)]} is missing"
    if len(given) > len(dues):
        return 1 + len(dues), f"{takes}, and {quoted(given[len(dues)])} is too many"
    faults = ((place, fault_of(word, due)) for place, (word, due) in enumerate(zip(given, dues), 1))
    return next((fault for fault in faults if fault[1]), None)
