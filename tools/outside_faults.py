"""What the built program shows and writes where the system refuses something: files that are none, outputs that take nothing, and limits of
the process. `tools/faults.py` runs these behind its own cases.

Each case is a name, a function that runs the program in a folder, and what comes of it: the status, standard error, and whether what was
written is the text or a beginning of it.
"""

import functools
import os
import resource
import signal
import subprocess
import tempfile
import threading
import time
from pathlib import Path

from checkout import TOP

TTL = TOP / "examples/ttl.sefl"
BAD = b"symnet 2;\nnode a 1 -> 0 { in 0 { forward; } }\n"
BAD_SHOWN = b"symnet: syntax 2:31 5\njob:2:31:\nnode a 1 -> 0 { in 0 { forward; } }\n" + b" " * 30 + b"^\n"
NO_OUTPUT = b"symnet: cannot write\n"
NO_MEMORY = b"symnet: out of memory\n"
# The seconds after which a run that does not end is wrong, on the slowest machine.
SECONDS = 300
# The most bytes of a file, and of a report.
JOB, LONG_REPORT = 67_108_864, 268_435_456
# A job with a file of a table, and the table.
NAMED = "symnet 2;\nnode sw = mac \"{}\" chain;\ninject sw.0 {{ tag L2 = 0; field head L2+0:48; }}\n"
SECRET = b"root:secret:1\n"


class Ran:
    def __init__(self, status, error, output, seconds):
        self.status, self.error, self.output, self.seconds = status, error, output, seconds


def run(program, folder, words, output=subprocess.PIPE, **more):
    started = time.time()
    ran = subprocess.run([program, *words], cwd=folder, stdin=subprocess.DEVNULL, stdout=output, stderr=subprocess.PIPE, timeout=SECONDS,
                         check=False, **more)
    return Ran(ran.returncode, ran.stderr, ran.stdout or b"", time.time() - started)


def limited(kind, most):
    return lambda: resource.setrlimit(kind, (most, most))


def written(folder, **files):
    for name, text in files.items():
        (folder / name).write_bytes(text)


# ---- files


def fifo(program, folder):
    """A job that is refused comes through a pipe with a name: it is read once, so the run ends though nothing writes there again."""
    os.mkfifo(folder / "job")
    writer = threading.Thread(target=lambda: (folder / "job").write_bytes(BAD), daemon=True)
    writer.start()
    ran = run(program, folder, ["explore", "job"])
    return ran.status == 7 and ran.error.startswith(BAD_SHOWN), ran


def first_line(error):
    """The text of the status; below it stand words for people."""
    return error[:error.find(b"\n") + 1]


def ends(status, error, output=None):
    """Whether a run ends so; what is written is not looked at where none is given."""
    return lambda ran: ran.status == status and first_line(ran.error) == error and output in (None, ran.output)


def folder_as(words, **files):
    def case(program, folder):
        (folder / "dir").mkdir()
        written(folder, **files)
        ran = run(program, folder, words)
        return ends(4, b"symnet: cannot read dir\n", b"")(ran), ran
    return case


def link(to, status, error):
    def case(program, folder):
        (folder / "ttl").write_bytes(TTL.read_bytes())
        (folder / "link").symlink_to(to)
        ran = run(program, folder, ["explore", "link"])
        return ends(status, error)(ran), ran
    return case


def named(name, shown):
    """A file of this name is not there, and its name is shown without what turns or moves a terminal's text."""
    def case(program, folder):
        ran = run(program, folder, ["explore", name])
        return ends(3, b"symnet: no file " + shown + b"\n", b"")(ran), ran
    return case


def no_text(program, folder):
    """A word that is no UTF-8: one line says so, and no word is blamed."""
    ran = run(program, folder, [b"explore", b"job\xff"])
    return ran.status == 2 and ran.error == b"symnet: usage\na word is no UTF-8\n" and ran.output == b"", ran


def table(name, shown):
    """A job names a file that is no table; the file's line is shown only where it lies in the current folder."""
    def case(program, folder):
        within = folder / "within"
        (within / "tables").mkdir(parents=True)
        for place in (within / "secret", within / "tables/secret", folder / "secret", within / "..secret"):
            place.write_bytes(SECRET)
        path = name.replace("FOLDER", str(within))
        (within / "job").write_text(NAMED.format(path))
        ran = run(program, within, ["explore", "job"])
        begin = f"symnet: bad table {path}:1 1\n{path}:1:1:\n".encode()
        right = ran.status == 10 and ran.error.startswith(begin) and (SECRET in ran.error) == shown
        return right, ran
    return case


def too_long(words, name, most, **files):
    def case(program, folder):
        written(folder, **files)
        with open(folder / name, "wb") as file:
            file.truncate(most + 1)
        ran = run(program, folder, words)
        return ends(6, f"symnet: too big {name}\n".encode(), b"")(ran), ran
    return case


@functools.cache
def long_files():
    """A folder for long files, which goes with this process."""
    return tempfile.TemporaryDirectory()


@functools.cache
def filled(fill):
    """A file of 64 MiB that is filled so."""
    place = Path(long_files().name, fill.hex())
    with open(place, "wb") as file:
        for _ in range(JOB >> 20):
            file.write(fill * ((1 << 20) // len(fill)))
    return place


# The bytes of a page of a terminal: what is shown of a fault, with the place and the words for people.
PAGE = 1_500


def one_line(words, name, fill, status):
    """A file of 64 MiB that is one line: what is shown of it is short and plain, and it takes four times its size at most."""
    def case(program, folder):
        written(folder, ttl=TTL.read_bytes(), list=b"permit any 0.0.0.0/0 0.0.0.0/0 any any\n")
        (folder / name).symlink_to(filled(fill))
        ran = run(program, folder, words.split(), preexec_fn=limited(resource.RLIMIT_AS, 4 * JOB))
        is_plain = all(it == b"\n"[0] or 0x20 <= it < 0x7f for it in ran.error)
        return ran.status == status and is_plain and len(ran.error) < PAGE, ran
    return case


# The words, the file that is long, and how the run ends where it is a line of letters, of control characters, of bytes that are no UTF-8, and of a comment; what is not tried is
# read by what reads another one.
LINES = (
    ("explore job", "job", 7, 7, 7, 7), ("ask job", "job", 7), ("loops job", "job", 7), ("compare job ttl", "job", 7), ("compare ttl job", "job", 7), ("walk job packet", "job", 7),
    ("replay job report", "job", 7), ("walk ttl packet", "packet", 11, 11, 11, 11), ("replay ttl report", "report", 14, 14, 14, 14), ("model mac table", "table", 10),
    ("model fib table", "table", 10, 10, 10, 10), ("model click table", "table", 10, 10, 10, 0), ("model acl table", "table", 10), ("rules table", "table", 10, 10, 10, 0),
    ("rules table list", "table", 10), ("rules list table", "table", 10),
)
FILLS = (("letters", b"x"), ("control characters", b"\x1b"), ("no UTF-8", b"\xff"), ("a comment", b"#"))


def long_lines():
    for words, name, *statuses in LINES:
        for (what, fill), status in zip(FILLS, statuses):
            # (a comment of a Click configuration begins with two bytes, and so does that of a job, which is no job then)
            given = b"//" if fill == b"#" and ("click" in words or name == "job") else fill
            yield f"{words}: 64 MiB of {what} in one line", one_line(words, name, given, status)


# ---- outputs


def closed(*files):
    def case(program, folder):
        written(folder, job=TTL.read_bytes())
        ran = run(program, folder, ["explore", "job"], preexec_fn=lambda: [os.close(file) for file in files])
        return ran.status == 5 and (2 in files or first_line(ran.error) == NO_OUTPUT), ran
    return case


def opened(path, mode):
    def case(program, folder):
        written(folder, job=TTL.read_bytes())
        with open(path or folder / "job", mode) as file:
            ran = run(program, folder, ["explore", "job"], file)
        return ends(5, NO_OUTPUT)(ran), ran
    return case


def unread(program, folder):
    written(folder, job=TTL.read_bytes())
    reader, writer = os.pipe()
    os.close(reader)
    with open(writer, "wb") as file:
        ran = run(program, folder, ["explore", "job"], file)
    return ends(5, NO_OUTPUT)(ran), ran


def short_file(program, folder):
    """A file may not grow past 100 bytes: the text ends there, and the system's signal ends the program where it is not ignored."""
    written(folder, job=TTL.read_bytes())
    whole = run(program, folder, ["explore", "job"]).output
    for restored, status in ((False, 5), (True, -signal.SIGXFSZ)):
        with open(folder / "out", "wb") as file:
            ran = run(program, folder, ["explore", "job"], file, preexec_fn=limited(resource.RLIMIT_FSIZE, 100), restore_signals=restored)
        if (folder / "out").read_bytes() != whole[:100] or ran.status != status or (first_line(ran.error) not in (NO_OUTPUT, b"")):
            return False, ran
    return True, ran


# ---- limits


def little_memory(program, folder):
    """A job whose table in style chain wants more than there is."""
    rows = "".join(f"10.{n >> 16}.{n >> 8 & 255}.{n & 255}/32 {n % 2}\n" for n in range(150_000))
    written(folder, job=NAMED.format("t").replace("mac", "fib").replace("L2+0:48", "L3+128:32").replace("L2", "L3").encode(),
            t=f"ports 2\n{rows}".encode())
    ran = run(program, folder, ["explore", "job"], preexec_fn=limited(resource.RLIMIT_AS, 48 << 20))
    return ends(1, NO_MEMORY)(ran), ran


def many_tables(program, folder):
    """A job that names ten large tables in style chain: it is too large, and is refused within a gigabyte."""
    rows = "".join(f"10.{n >> 16}.{n >> 8 & 255}.{n & 255}/32 {n % 2}\n" for n in range(200_000))
    boxes = "".join(f'node t{n} = fib "t" chain;\n' for n in range(10))
    links = "".join(f"link t{n}.0 -> t{n + 1}.0;\n" for n in range(9))
    written(folder, job=f"symnet 2;\n{boxes}{links}inject t0.0 {{ tag L3 = 0; field head L3+128:32 = 167772160; }}\n".encode(),
            t=f"ports 2\n{rows}".encode())
    ran = run(program, folder, ["explore", "job"], preexec_fn=limited(resource.RLIMIT_AS, 1_000_000_000))
    return ends(9, b"symnet: refused at 1000006 13\n", b"")(ran), ran


def replayed(program, folder):
    """A report is confirmed in twice its size, and what the program and the job take by themselves."""
    tests = "".join(f"if global x:32 == {n} {{ forward 0; }} else {{ }} " for n in range(2_000))
    written(folder, job=f"symnet 2;\nnode a 1 -> 1 {{ in 0 {{ {tests}forward 0; }} }}\ninject a.0 {{ field global x:32; }}\n".encode())
    with open(folder / "report", "wb") as report:
        run(program, folder, ["explore", "job"], report)
    most = 2 * (folder / "report").stat().st_size + PROGRAM
    ran = run(program, folder, ["replay", "job", "report"], preexec_fn=limited(resource.RLIMIT_AS, most))
    return ends(0, b"")(ran) and ran.output != b"", ran


def little_stack(program, folder):
    written(folder, job=TTL.read_bytes())
    whole = run(program, folder, ["explore", "job"]).output
    ran = run(program, folder, ["explore", "job"], preexec_fn=limited(resource.RLIMIT_STACK, STACK))
    return ends(0, b"", whole)(ran), ran


def nested(code):
    """A job whose code or condition is nested as deep as a job may be, with a stack that serves every job."""
    def case(program, folder):
        written(folder, job=f"symnet 1;\nnode r 1 -> 1 {{ in 0 {{ {code} }} }}\ninject r.0 {{ tag L3 = 0; field head L3+64:8; }}\n".encode())
        whole = run(program, folder, ["explore", "job"]).output
        ran = run(program, folder, ["explore", "job"], preexec_fn=limited(resource.RLIMIT_STACK, DEEP_STACK))
        return ends(0, b"", whole)(ran) and whole != b"", ran
    return case


# The bytes that the program and a small job take.
PROGRAM = 32 << 20

# A stack that serves a job with no pattern whose code and conditions are nested little, and one that serves every job.
STACK, DEEP_STACK = 64 << 10, 512 << 10

CASES = {
    "a refused job through a named pipe": fifo,
    "a folder as a job": folder_as(["explore", "dir"]),
    "a folder as a packet": folder_as(["walk", "job", "dir"], job=TTL.read_bytes()),
    "a folder as a table": folder_as(["explore", "job"], job=NAMED.format("dir").encode()),
    "a link to a job": link("ttl", 0, b""),
    "a link to nothing": link("none", 3, b"symnet: no file link\n"),
    "a link to itself": link("link", 4, b"symnet: cannot read link\n"),
    "a link to a folder": link(".", 4, b"symnet: cannot read link\n"),
    "a name with an escape": named("no\x1b[31mred\x07", b"no?[31mred?"),
    "a name with line ends": named("no\nsymnet: done\r", b"no?symnet: done?"),
    "a name with a control character past ASCII": named("no\u009b31m", b"no?31m"),
    "a name that turns the text": named("\u202efdp.exe\u2066\u200f", b"?fdp.exe??"),
    "a name in letters of another script": named("\u00e4\u4e2d", "\u00e4\u4e2d".encode()),
    "a word that is no text": no_text,
    "a table in the current folder": table("secret", True),
    "a table in a folder of it": table("tables/secret", True),
    "a table whose name begins with two points": table("..secret", True),
    "a table by an absolute path": table("FOLDER/secret", False),
    "a table in the folder above": table("../secret", False),
    "a table through the folder above": table("tables/../secret", False),
    "a job that is too long": too_long(["ask", "job"], "job", JOB),
    "a packet that is too long": too_long(["walk", "job", "packet"], "packet", JOB, job=TTL.read_bytes()),
    "a report that is too long": too_long(["replay", "job", "report"], "report", LONG_REPORT, job=TTL.read_bytes()),
    "a list that is too long": too_long(["rules", "list"], "list", JOB),
    "a configuration that is too long": too_long(["model", "click", "c"], "c", JOB),
    "a closed output": closed(1),
    "all closed": closed(0, 1, 2),
    "a full output": opened("/dev/full", "wb"),
    "an output that is open for reading": opened(None, "rb"),
    "a pipe without a reader": unread,
    "a file that may not grow": short_file,
    "little memory": little_memory,
    "ten large tables": many_tables,
    "a report in twice its size": replayed,
    "little stack": little_stack,
    "a stack for nested ifs": nested("if true { " * 62 + "forward 0;" + " } else { forward 0; }" * 62),
    "a stack for nested brackets": nested("constrain " + "[" * 62 + "head L3+64:8 <= 1" + "]" * 62 + "; forward 0;"),
    "a stack for negations": nested("constrain " + "not " * 60 + "head L3+64:8 <= 1; forward 0;"),
    "a stack for nested blocks": nested("{ " * 62 + "forward 0;" + " }" * 62),
    **dict(long_lines()),
    "a stack for a nested pattern": nested('allocate global abc:8; for n in "' + "[" * 200 + "a" + "]" * 200 + '" { noop; } forward 0;'),
}


def wrong_cases(program):
    """The cases that do not end as they should, in words."""
    for name, case in CASES.items():
        with tempfile.TemporaryDirectory() as folder:
            try:
                right, ran = case(program, Path(folder))
                told = f"status {ran.status} in {ran.seconds:.1f} s, {ran.error[:300]!r}, {ran.output[:100]!r}"
            except subprocess.TimeoutExpired:
                right, told = False, f"no end in {SECONDS} s"
        if not right:
            yield f"{name}: {told}"
