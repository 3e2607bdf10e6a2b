#!/usr/bin/env python3
"""Tests how tables of rows are read, and changed in part, with a small table; no program is run."""

import sys

import row_tables

TABLE = """# rows
text job
| symnet 2;
: no line

row one
words walk job packet
word a b
file job
= job
file packet
file bytes
bytes 00 ff
times 3 : ab
status 0
error
output
: {"walks":[{"decisions":[1]},
: {"decisions":[2]}
| ]}

# a comment
row two
words
failing load 0
output
status 2
error symnet: usage
"""
FAILED = []


def expect(what, found, wanted):
    if found != wanted:
        FAILED.append(what)
        print(f"rows_test: {what}: wanted {wanted!r}, came {found!r}")


def check_reading():
    one, two = row_tables.read_lines(TABLE.split("\n")).values()
    expect("words", (one.words, two.words), (["walk", "job", "packet", "a b"], []))
    expect("files", one.files, {"job": b"symnet 2;\nno line", "packet": b"", "bytes": b"\x00\xffababab"})
    expect("endings", [(it.status, it.error, it.output) for it in (one, two)], [(0, "", b'{"walks":[{"decisions":[1]},{"decisions":[2]}]}\n'), (2, "symnet: usage", b"")])
    expect("staged", (one.is_staged, two.is_staged), (False, True))


def check_pieces():
    for text in (b"", b"\n", b"a", b"a\n\nb", b'[{"rule":1},{"rule":2}]\n', b"\xff\n", "caf\u00e9\r\n".encode()):
        made = row_tables.pieces(text)
        expect(f"the pieces of {text!r}", b"".join(row_tables.piece(it, {}) for it in made), text)
        expect(f"each piece of {text!r} is a line", [it for it in made if "\n" in it], [])
    expect("a record a line", row_tables.pieces(b'[{"rule":1},{"rule":2}]\n'), [": [", ': {"rule":1},', '| {"rule":2}]'])


def changed(name, status, error, output):
    """The lines of the table that are not as before, and those that are no more, where a row ends so; it is read back as that."""
    lines = TABLE.split("\n")
    row_tables.change_ending(lines, row_tables.read_lines(lines)[name], status, error, output)
    row = row_tables.read_lines(lines)[name]
    expect(f"{name} ends as it was changed", (row.status, row.error, row.output), (status, error, output))
    others = {key: vars(it) for key, it in row_tables.read_lines(lines).items() if key != name}
    expect(f"the other row beside {name}", [(it["words"], it["status"], it["error"], it["files"]) for it in others.values()],
           [(it.words, it.status, it.error, it.files) for key, it in row_tables.read_lines(TABLE.split("\n")).items() if key != name])
    old = TABLE.split("\n")
    return [it for it in lines if it not in old], [it for it in old if it not in lines]


def check_changes():
    one = b'{"walks":[{"decisions":[1]},{"decisions":[2]}]}\n'
    expect("nothing", changed("one", 0, "", one), ([], []))
    expect("the last record", changed("one", 0, "", one.replace(b"2", b"3")), ([': {"decisions":[3]}'], [': {"decisions":[2]}']))
    expect("a record more", changed("one", 0, "", one.replace(b"}]}", b'},{"decisions":[3]}]}')), ([': ,', ': {"decisions":[3]}'], []))
    expect("a status", changed("one", 12, "symnet: partial", one), (["status 12", "error symnet: partial"], ["status 0", "error"]))
    expect("a line with a blank at its end", changed("one", 14, "symnet: bad report 1 ", one)[0], ["status 14", "error symnet: bad report 1 "])
    expect("no output", changed("one", 1, "symnet: out of memory", b"")[1][-3:], [': {"walks":[{"decisions":[1]},', ': {"decisions":[2]}', "| ]}"])
    expect("an output", changed("two", 0, "", b"x\n"), (["| x"], ["status 2", "error symnet: usage"]))


def main():
    check_reading()
    check_pieces()
    check_changes()
    print(f"rows_test: {len(FAILED)} failed" if FAILED else "rows_test: all is as it should be")
    return 1 if FAILED else 0


if __name__ == "__main__":
    sys.exit(main())
