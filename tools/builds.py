"""How `./strand` answers before there is a program, and proves and builds it, tried with a toolchain that only says what rt says
(tools/check-launch)."""
import fcntl
import json
import os
import re
import shutil
import subprocess

TOP = os.path.dirname(os.path.dirname(os.path.abspath(__file__)))
# The toolchain: it notes where and with which words it is called, and of each crate says how its check ends, by ENDS. What it
# builds puts the first example's report, and while it builds it edits EDITED, where that isn't empty. `rt try` puts TRIED, or has no
# answer where that is empty.
TOOLCHAIN = r"""#!/usr/bin/env python3
import json, os, sys
if sys.argv[1] == "version":
    sys.exit(print("a toolchain"))
with open(os.environ["CALLS"], "a") as calls:
    print(os.path.basename(os.getcwd()), *sys.argv[1:], file=calls)
ends, first = json.loads(os.environ["ENDS"]), os.environ["FIRST"]
if sys.argv[1] == "try":
    print(os.environ["TRIED"], end="")
    print("run=ended status=0 runners=1 proved=no" if os.environ["TRIED"] else "run=none proved=no", file=sys.stderr)
    sys.exit(not os.environ["TRIED"])
if sys.argv[1] == "run":
    os.makedirs("out", exist_ok=True)
    with open("out/strand", "w") as program:
        program.write('#!/bin/sh\ncat "$FIRST"\n')
    os.chmod("out/strand", 0o755)
    if os.environ["EDITED"]:
        with open(os.environ["EDITED"], "a") as source:
            source.write("\n")
    sys.exit(os.spawnlp(os.P_WAIT, "cat", "cat", first))
print("rt: a word before the first crate")
for crate, end in ends.items():
    if not end.startswith("not run"):
        print(f"== {crate}\nfn {crate}::f: {end}", flush=True)
if ends:
    print("== summary", *(f"{crate}: {end}" for crate, end in ends.items()), sep="\n")
sys.exit(not ends or any(end != "ok" for end in ends.values()))
"""


def read_crates():
    """The crates of crates.txt, each with all that it stands on, the lowest first."""
    below = {}
    with open(os.path.join(TOP, "crates.txt"), encoding="ascii") as file:
        for head, _, words in (line.partition(":") for line in file if not line.startswith("#")):
            named = {word for word in words.split() if word in below}
            below[head] = named.union(*(below[crate] for crate in named))
    return below


class Repository:
    """A repository of empty crates with the script `./strand`, and the toolchain that it finds."""

    def __init__(self, folder):
        self.folder, self.tools, self.calls = (os.path.join(folder, name) for name in ("repository", "toolchain", "calls"))
        below = read_crates()
        used = below["strand"] | {"strand"}
        self.below = {crate: below[crate] for crate in sorted(below, key=lambda it: len(below[it])) if crate in used}
        for crate in below:
            os.makedirs(os.path.join(self.folder, "crates", crate, "src"))
        for part in ("examples/first", "tools"):
            shutil.copytree(os.path.join(TOP, part), os.path.join(self.folder, part))
        for part in ("strand", "crates.txt"):
            shutil.copy(os.path.join(TOP, part), self.folder)
        os.mkdir(self.tools)
        with open(os.path.join(self.tools, "rt"), "w", encoding="ascii") as file:
            file.write(TOOLCHAIN)
        os.chmod(os.path.join(self.tools, "rt"), 0o755)
        self.first = os.path.join(self.folder, "examples", "first")
        self.inputs = [os.path.join(self.first, name) for name in ("machine", "image", "schedule")]

    def source(self, crate):
        return os.path.join(self.folder, "crates", crate, "src", "lib.rt")

    def edit(self, crate):
        """Makes a source another one than the program's."""
        with open(self.source(crate), "a", encoding="ascii") as file:
            file.write("\n")

    def run(self, ends, path=None, choice="yes", tried=None, words=None, edited="", output=subprocess.PIPE):
        """One call of `./strand` where the checks of the crates end so: what it puts, its status, what it says on standard error,
        and how it called the toolchain."""
        given = {"CALLS": self.calls, "FIRST": os.path.join(self.first, "printed"), "ENDS": json.dumps(ends), "EDITED": edited}
        given["TRIED"] = self.report().decode() if tried is None else tried
        given["PATH"], given["STRAND_BUILD"] = path or f"{self.tools}:{os.environ['PATH']}", choice
        words = words or ["run", *self.inputs, "end"]
        with open(self.calls, "w", encoding="ascii"):
            pass
        done = subprocess.run([os.path.join(self.folder, "strand"), *words], stdin=subprocess.DEVNULL,
                              stdout=output, stderr=subprocess.PIPE, env={**os.environ, **given}, timeout=60)
        with open(self.calls, encoding="ascii") as file:
            return done.stdout, done.returncode, done.stderr.decode(), file.read().splitlines()

    def report(self):
        with open(os.path.join(self.first, "printed"), "rb") as file:
            return file.read()


def fault_of_progress(below, said, jobs):
    """What is wrong with the lines that say which crates are being proved, where one after the other is done."""
    shown = re.findall(r"^strand: proving (.*) \((\d+) of (\d+) done\)$", said, re.M)
    if [(int(done), int(of)) for _, done, of in shown] != [(done, len(below)) for done in range(len(below))]:
        return f"says {said!r}"
    for names, done, _ in shown:
        proved, named = {*list(below)[:int(done)]}, names.split(", ")
        if len(named) > jobs or any(name in proved or not below[name] <= proved for name in named):
            return f"{names} can't be what is proved when {done} are done"
    return ""


TRY = r"strand try (--data \S+ ){3}-- run file1 file2 file3 end"
UNPROVED, SAME = "this run was not proved; ", "gives the same answer"


def due(check, name, got, put, status, calls, *said):
    """A call puts this and ends so, behind these calls of the toolchain, and says all this on standard error."""
    is_right = got[:2] == (put, status) and re.fullmatch(calls, "\n".join(got[3])) and all(word in got[2] for word in said)
    check.note(name, "" if is_right else f"status {got[1]}, {got[0]!r}, {got[3]}, {got[2]!r}")


def try_words(check, repository, commands):
    """What is told at once, with no toolchain called; each command of docs/program.md, which is run; and an output that fails."""
    ends = {crate: "ok" for crate in repository.below}
    for words, put, status in ((["--help"], b"strand: which", 0), (["--version"], b"strand, ", 0), (["list"], b"fault words\n", 2),
                               ([b"list", b"\xff"], b"", 10)):
        got = repository.run(ends, words=words)
        is_right = got[1] == status and got[0].startswith(put) and not got[3]
        check.note(f"{words} before a build", "" if is_right else f"{got}")
    given = {"SEED": "1", "SIZE": "2", "STOP": "end"}
    for name, *others in commands:
        got = repository.run(ends, choice="no", words=[name, *(given.get(word, "file") for word in others)])
        is_right = got[1] == 0 and len(got[3]) == 1 and got[3][0].startswith("strand try -- ")
        check.note(f"{name} before a build", "" if is_right else f"{got}")
    words, into = ["run", *repository.inputs, "end"], os.path.join(repository.folder, "into")
    due(check, "-o before a build", repository.run(ends, choice="no", words=["-o", into, *words]), b"", 0, TRY, UNPROVED)
    with open(into, "rb") as file:
        check.note("what -o wrote", "" if file.read() == repository.report() else "is another text")
    with open("/dev/full", "wb") as full:
        due(check, "a full output", repository.run(ends, choice="no", output=full), None, 5, TRY, "the output failed", UNPROVED)


def try_good(check, repository):
    """An answer before the proof, and the program proved, built once, and built again behind an edit."""
    ends, report = {crate: "ok" for crate in repository.below}, repository.report()
    due(check, "an answer alone", repository.run(ends, choice="no"), report, 0, TRY, UNPROVED)
    made = r"strand all check --jobs [1-9]\d*\nstrand run -- run \S+ \S+ \S+ end"
    for name in ("a first build", "a build behind an edit"):
        got = repository.run(ends)
        due(check, name, got, report, 0, f"{TRY}\n{made}", UNPROVED, SAME)
        fault = fault_of_progress(repository.below, got[2], int(re.search(r"--jobs (\d+)", "\n".join(got[3]))[1]))
        check.note(f"progress of {name}", fault)
        got = repository.run(ends)
        check.note(f"{name}, and no other", "" if got == (report, 0, "", []) else f"{got}")
        repository.edit("strand_events")
    due(check, "the program alone", repository.run(ends, choice="only"), b"", 0, made)
    due(check, "the program alone, and no other", repository.run(ends, choice="only"), b"", 0, "")
    repository.edit("strand_events")
    got = repository.run(ends, choice="only", edited=repository.source("strand_base"))
    due(check, "an edit during the build", got, b"", 71, made, "the sources changed")
    due(check, "no program behind it", repository.run(ends, choice="no"), report, 0, TRY, UNPROVED)


def try_differing(check, repository):
    """A proved answer that differs, none before the proof, and another call that is proving."""
    ends, report = {crate: "ok" for crate in repository.below}, repository.report()
    got = repository.run(ends, tried="stop 12\n")
    due(check, "an answer that differs", got, b"stop 12\n", 71, f"{TRY}\n.*\n.*", UNPROVED, "differing/proved")
    repository.edit("strand_events")
    due(check, "no answer before the proof", repository.run(ends, tried=""), report, 0, f"{TRY}\n.*\n.*",
        "no answer without a proof")
    repository.edit("strand_events")
    with open(os.path.join(repository.folder, "build", "lock"), "w", encoding="ascii") as lock:
        fcntl.flock(lock, fcntl.LOCK_EX)
        due(check, "beside another call", repository.run(ends), report, 0, TRY, UNPROVED, "by another call")


def try_bad(check, repository):
    """A crate that isn't proved, a check that is killed, a toolchain that stops at once, none, and a choice that is none."""
    broken, report = "strand_events", repository.report()
    above = [crate for crate, below in repository.below.items() if broken in below]
    ends = {crate: f"not run, since {broken} failed" if crate in above else "ok" for crate in repository.below}
    due(check, "a crate that isn't proved", repository.run({**ends, broken: "failed (1)"}), report, 71, f"{TRY}\n.*",
        f"strand: {broken} is not proved.", f"fn {broken}::f: failed (1)\n", f"stand on it: {', '.join(above)}\n",
        f"strand: {len(ends) - len(above) - 1} of {len(ends)} crates are proved;")
    due(check, "a toolchain that stops", repository.run({}), report, 71, f"{TRY}\n.*", "rt: a word before the first crate\n")
    due(check, "a choice that is none", repository.run({}, choice="perhaps"), b"", 71, "", "STRAND_BUILD is")
    for tool in ("dirname", "sh", "env", "python3"):
        os.symlink(shutil.which(tool), os.path.join(repository.folder, tool))
    due(check, "no toolchain", repository.run({}, path=repository.folder), b"", 70, "", "no 'rt'")
    got = repository.run({**ends, broken: "failed (-9)"})
    due(check, "a check that is killed", got, report, 0, f"{TRY}\n.*\n.*", f"{broken} was killed", SAME)


def try_builds(check, folder, commands):
    """How `./strand` answers and builds, in this folder, with a quote in its path; with these commands."""
    try_words(check, Repository(os.path.join(folder, "words'")), commands)
    for name, tried in (("bad", try_bad), ("good", try_good), ("differing", try_differing)):
        tried(check, Repository(os.path.join(folder, f"{name}'")))
