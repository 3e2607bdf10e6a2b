#!/usr/bin/env python3
"""Runs the built program while memory or the outside is refused to it, and looks at what it answers: its normal answer, or status 1 (for
memory), 4 or 5 (for files and the output) with the one line of that status and a beginning of its text.

A small library is loaded before the program. It refuses one allocation, or all from one on; or one call of open, read or write, with one
of three errors. Each allocation of short runs is refused, and some of long ones; each call of the outside. The library is C, compiled by
`cc`; where that or the program is missing, a line says so and nothing is run.

  tools/refused.py [PROGRAM]       crates/symnet_cli/out/symnet_cli where none is named
"""

import errno
import os
import shutil
import subprocess
import sys
import tempfile
import time
from collections import Counter
from concurrent.futures import ThreadPoolExecutor
from pathlib import Path

import row_tables
from checkout import built

# At most this many allocations of a run are refused one by one, and as many from one on.
MOST = 500
SECONDS = 300
ERRORS = [errno.EIO, errno.EACCES, errno.ENOMEM]

LIBRARY = r"""
#define _GNU_SOURCE
#include <dlfcn.h>
#include <errno.h>
#include <fcntl.h>
#include <stdarg.h>
#include <stdio.h>
#include <stdlib.h>
#include <sys/types.h>

/* Which call is refused, counted from 1, and from which on; 0 is none. */
static long memory_at, memory_from, outside_at, memory_calls, outside_calls;
static int error_is, begun;

static long asked(const char *name) { const char *text = getenv(name); return text ? atol(text) : 0; }

static void told(void) {
    const char *name = getenv("REFUSED_COUNTS");
    begun = 0;
    FILE *file = name ? fopen(name, "w") : NULL;
    if (file) { fprintf(file, "%ld %ld\n", memory_calls, outside_calls); fclose(file); }
}

__attribute__((constructor)) static void begin(void) {
    memory_at = asked("REFUSED_MEMORY");
    memory_from = asked("REFUSED_MEMORY_FROM");
    outside_at = asked("REFUSED_OUTSIDE");
    error_is = asked("REFUSED_ERROR");
    atexit(told);
    begun = 1;
}

static void *own(const char *name) { return dlsym(RTLD_NEXT, name); }

static int no_memory(void) {
    if (!begun) return 0;
    memory_calls++;
    if (memory_calls != memory_at && (memory_from == 0 || memory_calls < memory_from)) return 0;
    errno = ENOMEM;
    return 1;
}

static int no_outside(void) {
    if (!begun) return 0;
    outside_calls++;
    if (outside_calls != outside_at) return 0;
    errno = error_is;
    return 1;
}

void *malloc(size_t size) {
    static void *(*real)(size_t);
    if (!real) real = own("malloc");
    return no_memory() ? NULL : real(size);
}

void *aligned_alloc(size_t align, size_t size) {
    static void *(*real)(size_t, size_t);
    if (!real) real = own("aligned_alloc");
    return no_memory() ? NULL : real(align, size);
}

void *realloc(void *old, size_t size) {
    static void *(*real)(void *, size_t);
    if (!real) real = own("realloc");
    return no_memory() ? NULL : real(old, size);
}

ssize_t read(int file, void *bytes, size_t count) {
    static ssize_t (*real)(int, void *, size_t);
    if (!real) real = own("read");
    return no_outside() ? -1 : real(file, bytes, count);
}

ssize_t write(int file, const void *bytes, size_t count) {
    static ssize_t (*real)(int, const void *, size_t);
    if (!real) real = own("write");
    /* Standard error tells the answer, so it is never refused. */
    return file != 2 && no_outside() ? -1 : real(file, bytes, count);
}

int open(const char *name, int flags, ...) {
    static int (*real)(const char *, int, ...);
    if (!real) real = own("open");
    va_list rest;
    va_start(rest, flags);
    int mode = va_arg(rest, int);
    va_end(rest);
    return no_outside() ? -1 : real(name, flags, mode);
}
"""

# The rows of the tables of rows that are run: a table, and a row of it.
RUNS = [
    ("explore", "a time to live of one or less is dead"),
    ("tables", "a host, a switch, address translation and a mirroring server are explored"),
    ("tables", "their questions are answered"),
    ("tables", "a packet walks from the host to the server and back"),
    ("replay", "two paths"),
    ("click", "each primitive"),
    ("loops", "a ring goes round for ever"),
    ("compare", "the other job delivers one time to live less"),
    ("model", "three prefixes, grouped"),
    ("model", "addresses in style egress"),
    ("acl", "rules in style chain"),
    ("acl", "a rule is hidden by two together"),
    ("grow", "one box"),
]


class Run:
    """A run of the program in a folder of its own, as it is where nothing is refused."""

    def __init__(self, program, library, folder, row):
        self.program, self.library, self.folder, self.words = program, library, folder, row.words
        folder.mkdir()
        for name, text in row.files.items():
            (folder / name).write_bytes(text)
        counts = folder / ".counts"
        self.normal = self.ended(REFUSED_COUNTS=str(counts))
        self.memory, self.outside = map(int, counts.read_text().split())

    def ended(self, **asked):
        given = {**os.environ, "LD_PRELOAD": str(self.library), **{key: str(value) for key, value in asked.items()}}
        ran = subprocess.run([self.program, *self.words], cwd=self.folder, env=given, stdin=subprocess.DEVNULL, stdout=subprocess.PIPE,
                             stderr=subprocess.PIPE, timeout=SECONDS, check=False)
        return ran.returncode, ran.stdout, ran.stderr

    def is_right(self, ended, statuses):
        """The normal answer, or one of the statuses with its line and a beginning of the text."""
        status, output, error = ended
        if ended == self.normal:
            return True
        lines = [b"symnet: out of memory", b"symnet: cannot read ", b"symnet: cannot write", b"symnet: no file "]
        line = {1: lines[0], 3: lines[3], 4: lines[1], 5: lines[2]}.get(status if status in statuses else -1)
        # Where memory is refused nothing is left to say, so one line stands there alone; below the others stand words for people.
        is_told = line is not None and error.startswith(line) and (status != 1 or error.count(b"\n") == 1)
        return is_told and self.normal[1].startswith(output)

    def refusals(self):
        """What is asked of the library, one run after another, and the statuses that it may lead to."""
        step = max(1, self.memory // MOST)
        for number in range(1, self.memory + 1, step):
            yield {"REFUSED_MEMORY": number}, {1}
            yield {"REFUSED_MEMORY_FROM": number}, {1}
        for number in range(1, self.outside + 1):
            for error in ERRORS:
                yield {"REFUSED_OUTSIDE": number, "REFUSED_ERROR": error}, {4, 5}

    def tried(self, refusal):
        """The status of a run with a refusal, and what is wrong with it."""
        asked, statuses = refusal
        try:
            ended = self.ended(**asked)
        except subprocess.TimeoutExpired:
            return None, f"{' '.join(self.words)}: {asked}: no end in {SECONDS} s"
        if self.is_right(ended, statuses):
            return ended[0], None
        return ended[0], f"{' '.join(self.words)}: {asked}: status {ended[0]}, {ended[2][:200]!r}, {len(ended[1])} bytes"


def compiled(folder):
    source, library = folder / "refused.c", folder / "refused.so"
    source.write_text(LIBRARY)
    made = subprocess.run(["cc", "-O1", "-shared", "-fPIC", "-o", str(library), str(source), "-ldl"], stderr=subprocess.PIPE, check=False)
    return library if made.returncode == 0 else None


def tried(program, folder, library):
    started, statuses, wrong = time.time(), Counter(), []
    with ThreadPoolExecutor(os.cpu_count()) as pool:
        for number, (table, name) in enumerate(RUNS):
            run = Run(program, library, folder / str(number), row_tables.read(table)[name])
            if run.normal[0] != 0 or run.memory == 0 or run.outside == 0:
                wrong.append(f"{table}: {name}: status {run.normal[0]} with {run.memory} allocations and {run.outside} calls of the outside")
            for status, fault in pool.map(run.tried, run.refusals()):
                statuses[status] += 1
                wrong += [fault] if fault else []
    # A refusal that no run ends by shows that the library was not heard.
    wrong += [f"no run ended with status {status}" for status in (1, 4, 5) if not statuses[status]]
    for it in wrong:
        print(f"refused: {it}")
    ends = ", ".join(f"{count} with status {status}" for status, count in sorted(statuses.items(), key=str))
    print(f"refused: {sum(statuses.values())} runs in {time.time() - started:.0f} s, each with a refusal ({ends}): {len(wrong)} wrong")
    return 1 if wrong else 0


def main(words):
    program = built(words, "refused")
    if program is None:
        return 0
    if not shutil.which("cc"):
        print("refused: nothing was run, since there is no cc")
        return 0
    with tempfile.TemporaryDirectory() as folder:
        library = compiled(Path(folder))
        if library is None:
            print("refused: nothing was run, since cc makes no library")
            return 0
        return tried(str(program), Path(folder), library)


if __name__ == "__main__":
    sys.exit(main(sys.argv[1:]))
