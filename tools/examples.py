"""The commands of the examples, run by the built program, and as rows of the gate.

examples/ and each of its folders has a file `commands`, a line for each command: its words, `>`, and the file that holds what it writes; a
number in brackets before the words is its status, where that is not 0.
"""

import subprocess

from checkout import TOP

# What standard error says of a status.
TEXTS = {0: "", 12: "symnet: partial"}


def commands():
    """Each command: its folder, its status, its words, and the file for what it writes."""
    for listed in sorted(TOP.glob("examples/**/commands")):
        for line in listed.read_text().splitlines():
            status = 0
            if line.startswith("["):
                number, line = line[1:].split("]", 1)
                status = int(number)
            words, written = line.split(">")
            yield listed.parent, status, words.split(), listed.parent / written.strip()


def run(program):
    """Runs all commands, and writes their files; the commands with another status, in words."""
    for folder, status, words, written in commands():
        ran = subprocess.run([program, *words], cwd=folder, stdout=subprocess.PIPE, stderr=subprocess.PIPE, check=False)
        written.write_bytes(ran.stdout)
        if ran.returncode != status:
            yield f"{folder.name}: {' '.join(words)}: status {ran.returncode}, {ran.stderr.decode().strip()}"


def files_of(folder, words):
    """The files that a command reads: those that the words name, and the tables of its folder, which a job names."""
    named = [folder / word for word in words[1:] if (folder / word).is_file()]
    return named + [it for it in [*sorted(folder.glob("*.fib")), *sorted(folder.glob("*.mac"))] if it not in named]


def table():
    """The table of rows."""
    out = ["# The commands of examples/, with what is written of each there. Made by tools/rows.py of the files `commands`."]
    for folder, status, words, written in commands():
        out += ["", f"row {folder.name}: {' '.join(words)}", f"words {' '.join(words)}"]
        for file in files_of(folder, words):
            out += [f"file {file.relative_to(folder)}", f"from {file.relative_to(TOP)}"]
        out += [f"status {status}", f"error {TEXTS[status]}".rstrip(), "output", f"from {written.relative_to(TOP)}"]
    return "\n".join(out) + "\n"
