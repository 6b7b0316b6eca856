"""Each tool called with `-h`, with a word that is none, with files that there aren't or that are none, and with the largest files.

tools/check-tools tries this on all tools of the repository, and tools/check-launch on the installed ones. A tool that isn't told here
fails, so that none is forgotten.
"""
import os
import struct
import subprocess

import assembler
import calls
import checks
import formats
import inputs

MEGABYTES, WAIT = 200, 300  # seconds, on a machine that does other work
# The words of a call of each tool. Those of PLACES are files, each of which is bad in turn.
CALLS = {"schedule": "lazy --for MACHINE IMAGE", "sweep": "eager MACHINE IMAGE", "timeline": "MACHINE IMAGE SCHEDULE end",
         "graph": "--image IMAGE --run REPORT --certificate CERT TRACE", "crash-image": "--image IMAGE", "report": "--image IMAGE REPORT",
         "why": "MACHINE IMAGE SCHEDULE end CRASH", "check-certificate": "MACHINE IMAGE TRACE CRASH CERT",
         **dict.fromkeys(("check-examples", "check-launch", "check-memory", "check-tools", "fuzz", "hostile", "launch"), "PROGRAM"),
         "explain": "PROGRAM 3", "install": "FOLDER PROGRAM", "write-to": "PROGRAM -o FOLDER",
         **dict.fromkeys(("check-allocations", "check-tests", "first-call", "gate-times", "kept-program", "prove", "try-edits"), "")}
PLACES = ("MACHINE", "IMAGE", "SCHEDULE", "CRASH", "CERT", "TRACE", "REPORT", "PROGRAM")
BAD = ("none", "folder", "text", "bytes", "endless")
ASKING = ("schedule", "sweep", "timeline", "why")  # which ask a program
TELLER = """#!/bin/sh
case $1 in run) cat "{REPORT}" ;; trace) cat "{TRACE}" ;; refute) cat "{REFUTED}" ;; check) echo accepted ;; esac
"""
PROGRAMS_WORDS = ("first-call",)  # whose words are those of the program
LOADS = 130_000  # of the largest run, whose trace has five edges for each
NAMED = formats.QUANTITIES[4][2]  # symbols, at most


def tools_in(folder, begin=""):
    """The tools of a folder, by their names without this beginning."""
    names = (name for name in os.listdir(folder) if os.access(os.path.join(folder, name), os.X_OK))
    return {name.removeprefix(begin): os.path.join(folder, name) for name in sorted(names)
            if name != begin.rstrip("-") and os.path.isfile(os.path.join(folder, name))}


def make_bad(folder):
    """Files that are of no kind: none, a folder, a text, bytes, and one without an end."""
    found = {"none": os.path.join(folder, "none"), "folder": folder, "endless": "/dev/zero"}
    for name, data in (("text", b"no file of a kind\n"), ("bytes", bytes(range(256)) * 9)):
        found[name] = os.path.join(folder, name)
        with open(found[name], "wb") as file:
            file.write(data)
    return found


def is_one_line(tool, called, status=None):
    """Whether a call put nothing, said one line with the tool's name, and ended with this status, or one of a fault."""
    begins = called.said.startswith((b"%s: " % tool.encode(), b"strand: "))
    return begins and called.said.count(b"\n") == 1 and not called.text and \
        (0 < called.status <= 10 if status is None else called.status == status)


def note(check, name, called, is_right):
    fault = "" if is_right else f"status {called.status}, {called.text[:80]!r}, {called.said[:200]!r}"
    check.note(name, fault or (f"{called.megabytes:.0f} MB" if called.megabytes >= MEGABYTES else ""))


def words_of(tool, files):
    """A call of a tool with these files."""
    return [files.get(word, word) for word in CALLS[tool].split()]


def try_tool(check, tool, path, files, bad):
    """A tool's help, a word that is none, and each of its files bad."""
    if tool not in CALLS:
        check.note(tool, "tools/misuse.py doesn't tell how it is called")
        return
    shown, asking = os.path.basename(path), ["--program", files["PROGRAM"]] if tool in ASKING else []
    called = calls.call([path, "-h"])
    note(check, f"{shown} -h", called, called.status == 0 and called.text and not called.said)
    if tool not in PROGRAMS_WORDS:
        called = calls.call([path, "--no-such-word"])
        note(check, f"{shown} --no-such-word", called, is_one_line(shown, called, 2))
    for at, word in enumerate(CALLS[tool].split()):
        for name, file in bad.items() if word in PLACES else ():
            if word == "PROGRAM" and name in ("bytes", "endless"):
                continue  # which nothing reads
            words = words_of(tool, files)
            words[at] = file
            called = calls.call([path, *asking, *words])
            note(check, f"{shown} {' '.join(words)}: {name} for {word}", called, is_one_line(shown, called))


def try_tools(check, program, tools, folder, kinds=BAD):
    """All these tools, by their names, with these kinds of bad files."""
    files, bad = make_files(program, folder), {name: file for name, file in make_bad(folder).items() if name in kinds}
    checks.for_each(lambda tool: try_tool(check, tool, tools[tool], files, bad), tools)


def padded(text, most):
    """A text with a comment that makes it as long as it may be."""
    return text + b"#" * (most - len(text))


def largest_image():
    """An image with as much of everything as there may be. It stores to a word, joins, loads it many times, and stores again."""
    begin = assembler.assemble(b"lui x2, 0x40000\naddi x1, x1, 1\nsd x1, 0(x2)\njoinstrand\n.persist\n.word 0").code
    load, *end = assembler.assemble(b"ld x4, 0(x2)\naddi x1, x1, 1\nsd x1, 0(x2)\npersistbarrier\njoinstrand\nebreak\n"
                                    b".persist\n.word 0").code
    most = dict((name, high) for name, _, high in formats.QUANTITIES)
    code = [*begin, *[load] * LOADS, *end]
    symbols = [formats.Symbol(2, place, b"word_%059d" % place) for place in range(NAMED)]
    return formats.Image([0] * most["cores"], code + [0] * (most["code"] - len(code)), [1] * most["volatile"],
                         [2] * most["persistent"], symbols)


def largest_schedule():
    """Steps of the first core's run, which are as many as there may be."""
    durable = ["d 0", "s 0 0 0", "w 0"]
    steps = ["c 0"] * 3 + durable + ["c 0"] * (LOADS + 4) + ["d 0", *durable] + ["c 0"] * 2
    return "".join(f"{step}\n" for step in [*steps, *["c 1"] * (formats.MOST_STEPS - len(steps))]).encode()


def put_run(program, names, stop="end"):
    """Writes what the program puts of a run of these files."""
    run = [names["MACHINE"], names["IMAGE"], names["SCHEDULE"], stop]
    for word, command in (("TRACE", ["trace", *run]), ("REPORT", ["run", *run]), ("REFUTED", ["refute", *run, names["CRASH"]])):
        with open(names[word], "wb") as file:
            subprocess.run([program, *command], stdout=file, check=True)


def make_files(program, folder):
    """A good file of each kind: a run of examples/log."""
    here = os.path.join(inputs.TOP, "examples", "log")
    names = {"MACHINE": "epoch.machine", "SCHEDULE": "drain.schedule", "CRASH": "commit-without-record.crash"}
    names = {word: os.path.join(here, name) for word, name in names.items()}
    names |= {word: os.path.join(folder, word.lower()) for word in ("IMAGE", "TRACE", "REPORT", "REFUTED")}
    with open(os.path.join(here, "append.s"), "rb") as text, open(names["IMAGE"], "wb") as file:
        file.write(formats.write_image(assembler.assemble(text.read())))
    put_run(program, names, "9")
    return {"PROGRAM": program, "FOLDER": os.path.join(folder, "made"), "CERT": names["REFUTED"], **names}


def make_largest(program, folder):
    """The largest file of each kind, and what the program puts of that run."""
    names = {word: os.path.join(folder, f"largest-{word}") for word in (*PLACES, "REFUTED")}
    sizes = "".join(f"{key.decode()} {most}\n" for key, most in formats.SIZES.items())
    image = largest_image()
    texts = {"MACHINE": f"mode strand\nconflict tag\n{sizes}".encode(), "SCHEDULE": largest_schedule(), "CERT": b"joined 0\n" * 200_001}
    data = {word: padded(text, formats.BYTES[formats.KINDS[word]]) for word, text in texts.items()}
    data |= {"IMAGE": formats.write_image(image), "CRASH": struct.pack("<Q", 0) + formats.write_crash(image.persistent)[8:]}
    for word, content in data.items():
        with open(names[word], "wb") as file:
            file.write(content)
    put_run(program, names)
    return names


def make_teller(names, folder):
    """A program that puts what is stored of the largest run, so that the memory of PROGRAM, which is called from a tool, isn't counted."""
    teller = os.path.join(folder, "teller")
    with open(teller, "w", encoding="utf-8") as file:
        file.write(TELLER.format(**names))
    os.chmod(teller, 0o755)
    return teller


def try_largest(check, program, tools, folder):
    """The tools that take files of the formats, with the largest: what they hold, and that none ends in a trace of calls."""
    files = make_largest(program, folder)
    asking = ["--program", make_teller(files, folder)]

    def try_one(tool):
        with open(os.devnull, "wb") as nothing:
            called = calls.call([tools[tool], *(asking if tool in ASKING else []), *words_of(tool, files)], WAIT, nothing)
        note(check, f"{tool} with the largest files", called, called.status in (0, 1) and called.said.count(b"\n") <= 1)
    checks.for_each(try_one, (tool for tool in tools if any(word in formats.KINDS for word in CALLS.get(tool, "").split())))
