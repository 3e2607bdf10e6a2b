"""Tables of rows in which one thing of the outside fails, or a job's text ends early; tools/rows.py writes them.

outside.rows: of one run of each command, as it stands in another table, each load fails in turn, each file is absent, each put fails and
keeps five bytes, and two files are one byte longer than their limit. prefixes.rows: each beginning of a job's text.
"""

import re

import row_tables

# A table of rows holds all its files at once, so few of them are long; files.rows has a job and a packet, and tools/faults.py the others.
LIMIT = 67_108_864
LONG = {("explore job", "sw.mac"), ("model fib f", "f")}

# A run of each command: its table, its row, and the short names of its files' texts and of what it writes. The files stand in the
# order in which they are loaded.
RUNS = [
    ("tables", "a host, a switch, address translation and a mirroring server are explored", ["job", "macs"], "report"),
    ("tables", "a packet walks from the host to the server and back", ["job", "macs", "packet"], "walks"),
    ("tables", "their report is confirmed", ["job", "macs", "report"], "counts"),
    ("tables", "their questions are answered", ["job", "macs"], "answers"),
    ("loops", "a ring goes round for ever", ["ring"], "loops"),
    ("compare", "the other job delivers one time to live less", ["first", "second"], "compared"),
    ("model", "three prefixes, grouped", ["prefixes"], "fib"),
    ("model", "addresses, grouped", ["addresses"], "mac"),
    ("click", "outputs of a tee", ["tee"], "click"),
    ("acl", "a rule as a node, grouped", ["rule"], "acl"),
    ("acl", "two rules decide and one is hidden", ["list"], "fates"),
    ("acl", "two rules of one list are one of the other", ["left", "right"], "verdict"),
    ("grow", "one box", [], "grown"),
]


def row(name, words, files, status, error, output):
    """A row; files are pairs of a name and lines, and the output is lines."""
    out = ["", f"row {name}", f"words {words}"]
    for file, text in files:
        out += [file if file.startswith("failing ") else f"file {file}", *text]
    return out + [f"status {status}", f"error {error}".rstrip(), "output", *output]


# ---- the outside


def puts_of(words, output):
    """What is put, one after another: a report's head, each record, its tail; every other text at once."""
    if not words.startswith("explore"):
        return [output]
    text = output.decode()
    begin = text.index('"records":[') + len('"records":[')
    end = text.index('],"refuted"')
    records = re.split(r',(?={"before"|{"decisions")', text[begin:end])
    return [it.encode() for it in [text[:begin], records[0], *("," + it for it in records[1:]), text[end:]]]


def failing_loads(words, files):
    for number, (name, _) in enumerate(files):
        yield row(f"{words}: load {number} fails", words, [*files, (f"failing load {number}", [])], 4, f"symnet: cannot read {name}", [])


def absent_files(words, files):
    for name, _ in files:
        rest = [it for it in files if it[0] != name]
        yield row(f"{words}: {name} is absent", words, rest, 3, f"symnet: no file {name}", [])


def long_files(words, files):
    for name, _ in files:
        if (words, name) in LONG:
            long = [(it[0], [f"times {LIMIT + 1} : x"]) if it[0] == name else it for it in files]
            yield row(f"{words}: {name} is a byte too long", words, long, 6, f"symnet: too big {name}", [])


def failing_puts(words, files, texts, names):
    for number, text in enumerate(texts):
        kept = [f"= {name}" for name in names[:number]] + row_tables.pieces(text[:5])
        fails = [(f"failing put {number} keeps 5", [])]
        yield row(f"{words}: put {number} fails", words, files + fails, 5, "symnet: cannot write", kept)
    past = [(f"failing put {len(texts)} keeps 5", [])]
    yield row(f"{words}: there is no put {len(texts)}", words, files + past, 0, "", [f"= {name}" for name in names])


def outside():
    out = ["# One thing of the outside fails: each load, each file, each put of a run of each command. What was written is a beginning of the",
           "# text. Made by tools/rows.py."]
    known = {}

    def text(name, value):
        if known.setdefault(name, value) != value:
            raise ValueError(f"two texts are named {name}")
        return ["", f"text {name}", *row_tables.pieces(value)]

    for table, name, files, written in RUNS:
        found = row_tables.read(table)[name]
        words = " ".join(found.words)
        for (_, value), short in zip(found.files.items(), files, strict=True):
            if short not in known:
                out += text(short, value)
        puts = puts_of(words, found.output)
        names = [written] if len(puts) == 1 else [f"piece {number}" for number in range(len(puts))]
        for short, value in zip(names, puts):
            out += text(short, value)
        if len(puts) > 1:
            known[written] = found.output
            out += ["", f"text {written}", *(f"= {short}" for short in names)]
        given = [(file, [f"= {short}"]) for file, short in zip(found.files, files)]
        made = [failing_loads(words, given), absent_files(words, given), long_files(words, given), failing_puts(words, given, puts, names)]
        out += [line for rows in made for it in rows for line in it]
    return "\n".join(out) + "\n"


# ---- beginnings of a text

# A word of the job; a name or a number may end anywhere, and of the others those may stand where they begin a longer one.
WORD = re.compile(r'"[^"]*"|->|<=|[A-Za-z_][A-Za-z_0-9]*|[0-9]+|[^ \n]')
OPEN = re.compile(r"L3|r|[0-9]+")
ALSO = {"<=": ["<"], "forward": ["for"]}


def place(text):
    """The line and the column behind a text, from 1."""
    return f"{text.count(chr(10)) + 1}:{len(text) - text.rfind(chr(10))}"


def fault_of(text, cut):
    """The place and the kind of the fault of the first bytes of a job's text, and none where a blank alone is missing."""
    for word in WORD.finditer(text):
        if word.start() < cut < word.end():
            part = text[word.start():cut]
            if part.startswith('"'):
                return place(text[:word.start()]), 4
            stands = OPEN.fullmatch(word.group()) or part in ALSO.get(word.group(), [])
            return place(text[:cut] if stands else text[:word.start()]), 5
    return (place(text[:cut]), 5) if text[cut:].strip() else None


def prefixes():
    found = row_tables.read("explore")["the other version"]
    text = found.files["job"].decode()
    out = ["# Each beginning of a job's text: the text, and the text without its last line end, are the job. Made by tools/rows.py.", "",
           "text report", *row_tables.pieces(found.output)]
    for cut in range(len(text) + 1):
        fault = fault_of(text, cut)
        job = [("job", row_tables.pieces(text[:cut].encode()))]
        if fault is None:
            out += row(f"the first {cut} bytes", "explore job", job, 0, "", ["= report"])
        else:
            out += row(f"the first {cut} bytes", "explore job", job, 7, f"symnet: syntax {fault[0]} {fault[1]}", [])
    return "\n".join(out) + "\n"

