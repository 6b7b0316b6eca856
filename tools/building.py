"""Small programs that call crates of this repository directly, for a bench or a check: each is proved and built in a folder of its own.

Their sources stand beside the script that runs them, in src/ and proofs/ of a folder, as .txt: the gate takes .rt and .antt files in
crates alone.
"""
import os
import shutil
import subprocess
import sys

TOP = os.path.dirname(os.path.dirname(os.path.abspath(__file__)))


def listed():
    """The crates that each crate of this repository names."""
    with open(os.path.join(TOP, "crates.txt"), encoding="ascii") as file:
        lines = [line.split(":") for line in file if ":" in line and not line.startswith("#")]
    return {name.strip(): names.split() for name, names in lines}


def below(crates, names):
    """These crates of the repository and all that they stand on."""
    found = [name for name in names if name in crates]
    for name in found:
        found += [other for other in crates[name] if other in crates and other not in found]
    return found


def copy_sources(source, crate):
    """The program's files, with the names that they have in a crate."""
    for folder, _, names in os.walk(source):
        part = os.path.relpath(folder, source)
        os.makedirs(os.path.join(crate, part), exist_ok=True)
        for name in names:
            kind = ".rt" if part == "src" else ".antt"
            shutil.copy(os.path.join(folder, name), os.path.join(crate, part, name.removesuffix(".txt") + kind))


def prepare(source, names, top):
    """Makes a repository of the program and copies of these crates and those below them. Gives the program's folder."""
    crates = listed()
    copied = below(crates, names)
    for name in copied:
        for part in ("src", "specs", "proofs"):
            shutil.copytree(os.path.join(TOP, "crates", name, part), os.path.join(top, "crates", name, part))
    program = os.path.basename(source).replace("-", "_")
    with open(os.path.join(top, "crates.txt"), "w", encoding="ascii") as file:
        file.writelines(f"{name}: {' '.join(crates[name])}\n" for name in copied)
        file.write(f"{program}: {' '.join(names)}\n")
    crate = os.path.join(top, "crates", program)
    copy_sources(source, crate)
    return crate


def build(source, names, top, arguments):
    """Proves and builds the program in a folder, runs it with these arguments, which has to end well, and gives it."""
    crate = prepare(source, names, top)
    done = subprocess.run(["rt", "run", "--", *arguments], cwd=crate, stdin=subprocess.DEVNULL, stdout=subprocess.PIPE,
                          stderr=subprocess.STDOUT, text=True)
    if done.returncode != 0:
        sys.exit(f"{source} is not proved, or did not end well:\n{done.stdout[-3000:]}")
    return os.path.join(crate, "out", os.path.basename(crate))
