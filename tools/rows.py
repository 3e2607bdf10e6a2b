#!/usr/bin/env python3
"""Keeps the tables of worked rows, crates/symnet_rows/data.

  tools/rows.py update [PROGRAM]  runs the built program (crates/symnet_cli/out/symnet_cli where none is named) over the commands of examples/
                                  and over the rows, and writes what came, to be read as a diff; then as `make`
  tools/rows.py make              writes the tables that are made of others and of examples/, and the copies of files of examples/ that tables name
  tools/rows.py check             says what of this is not up to date; where the program of the rows is built, also whether it reads all rows
"""

import re
import subprocess
import sys
import tempfile
from concurrent.futures import ThreadPoolExecutor
from pathlib import Path

import examples
import hostile_rows
import row_tables
from checkout import TOP, built
from row_tables import DATA

ROWS = DATA.parent
# The tables that are made, each behind those that it is made of.
MADE = {"examples": examples.table, "outside": hostile_rows.outside, "prefixes": hostile_rows.prefixes}
# What the program of the rows says of a table.
SAID = "{}.rows: each row ended as wanted\n"


def copied():
    """The files of examples/ that the tables name: where each stands, and where its copy for the tables does."""
    lines = "\n".join(line for table in row_tables.names() for line in row_tables.lines_of(table))
    return {TOP / it: DATA / it for it in sorted(set(re.findall(r"^(?:times \d+ )?from (examples/.+)$", lines, re.MULTILINE)))}


# ---- what came


def came(program, row):
    """The status, the first line of standard error and the output of a row's words over its files; None where a file cannot have its name."""
    with tempfile.TemporaryDirectory() as folder:
        for name, text in row.files.items():
            file = Path(folder, name)
            if not file.resolve().is_relative_to(Path(folder).resolve()):
                return None
            try:
                file.parent.mkdir(parents=True, exist_ok=True)
                file.write_bytes(text)
            except OSError:
                return None
        ran = subprocess.run([program, *row.words], cwd=folder, stdin=subprocess.DEVNULL, stdout=subprocess.PIPE, stderr=subprocess.PIPE, check=False)
    return ran.returncode, ran.stderr.decode(errors="replace").split("\n", 1)[0], ran.stdout


def update_table(program, table):
    """Writes how the rows of a table end, and says how many changed and which were not run."""
    lines, rows = row_tables.lines_of(table), list(row_tables.read(table).values())
    with ThreadPoolExecutor() as pool:
        ends = list(pool.map(lambda row: None if row.is_staged else came(program, row), rows))
    changed = 0
    for row, end in reversed(list(zip(rows, ends))):
        if end is not None and end != (row.status, row.error, row.output):
            row_tables.change_ending(lines, row, *end)
            changed += 1
    (DATA / f"{table}.rows").write_text("\n".join(lines))
    skipped = sum(end is None for end in ends)
    print(f"rows: {table}: {changed} of {len(rows)} changed" + (f", {skipped} not run, since they say what fails outside or what patterns find" if skipped else ""))


def update(program):
    for told in examples.run(program):
        print(f"rows: examples: {told}")
    copy_examples()
    for table in (it for it in row_tables.names() if it not in MADE):
        update_table(program, table)
    return make()


# ---- what is made


def make():
    for name, made in MADE.items():
        (DATA / f"{name}.rows").write_text(made())
    copy_examples()
    return 0


def copy_examples():
    wanted = copied()
    for old in (DATA / "examples").rglob("*"):
        if old.is_file() and old not in wanted.values():
            old.unlink()
    for file, copy in wanted.items():
        copy.parent.mkdir(parents=True, exist_ok=True)
        copy.write_bytes(file.read_bytes())


def faults():
    """What is not up to date, in words."""
    for name, made in MADE.items():
        if name not in row_tables.names() or "\n".join(row_tables.lines_of(name)) != made():
            yield f"{name}.rows is not what `tools/rows.py make` makes"
    wanted = copied()
    for file, copy in wanted.items():
        if not file.is_file() or not copy.is_file() or file.read_bytes() != copy.read_bytes():
            yield f"{copy.relative_to(TOP)} is no copy of {file.relative_to(TOP)} (`tools/rows.py make`)"
    for old in (DATA / "examples").rglob("*"):
        if old.is_file() and old not in wanted.values():
            yield f"no table names {old.relative_to(TOP)}"
    run = (ROWS / "args").read_text().splitlines()
    if sorted(run) != sorted(f"{it}.rows" for it in row_tables.names()):
        yield "crates/symnet_rows/args does not name each table once"
    if (ROWS / "stdout").read_text() != "".join(SAID.format(it.removesuffix(".rows")) for it in run):
        yield "crates/symnet_rows/stdout has not a line for each table of args"


def uncounted():
    """The tables from which the program of the rows reads another number of rows, where it is built."""
    program = ROWS / "out/symnet_rows"
    if not program.is_file():
        return
    run = (ROWS / "args").read_text().splitlines()
    said = subprocess.run([program, *run], cwd=DATA, stdin=subprocess.DEVNULL, stdout=subprocess.DEVNULL, stderr=subprocess.PIPE, check=False).stderr.decode()
    for table in row_tables.names():
        count = len(row_tables.read(table))
        if f"{table}.rows: {count} rows\n" not in said:
            yield f"{table}.rows has {count} rows, and the program reads another number"


def check():
    found = list(faults()) or list(uncounted())
    for it in found:
        print(f"rows: {it}")
    if not found:
        print(f"rows: {sum(len(row_tables.read(it)) for it in row_tables.names())} rows in {len(row_tables.names())} tables are up to date")
    return 1 if found else 0


def main(words):
    if words[:1] == ["update"] and len(words) <= 2:
        program = built(words[1:], "rows")
        return update(program) if program else 1
    if words in (["make"], ["check"]):
        return make() if words == ["make"] else check()
    print(__doc__, end="", file=sys.stderr)
    return 2


if __name__ == "__main__":
    sys.exit(main(sys.argv[1:]))
