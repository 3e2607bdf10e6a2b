#!/usr/bin/env python3
"""Runs the built program on files with a fault each, and compares what standard error shows: the text of the status, below it the place of
the fault, and below that what is said of it in words. It also names each sentence of the crate `fault_words` that no run showed. Where the
program is not built, it says so and runs nothing.

  tools/faults.py [PROGRAM]       crates/symnet_cli/out/symnet_cli where none is named
"""

import os
import re
import subprocess
import sys
import tempfile
from pathlib import Path

import outside_faults
import row_tables
from checkout import built
from documents import WORDS, literals

JOB = """symnet 2;
node r 2 -> 1 {
  in 0 {
    if head L3+72:8 in {6, 17..18} { noop; } else { { fail "x"; } }
    for v in "^in" { set $v:8 = 0; }
    forward 0;
  }
  in 1 { }   // code without instructions
}
node in 1 -> 0 {
}
link r.0 -> in.0;
inject r.0 {
  tag L3 = 112;
  field head L3+72:8;
  field global in:8 = 1;
  where head L3+72:8 in {1..9};
}
ask reach in in.0;
ask visible head L3+72:8 at in in.0;
"""
TABLE = """symnet 2;
node sw = mac "sw.mac" chain;
node r 1 -> 1 { }
link sw.0 -> r.0;
link sw.1 -> r.7;
inject sw.0 { tag L2 = 0; field head L2+0:48; }
"""
TWO_TABLES = TABLE.replace("node r", 'node two = mac "two.mac" chain;\nnode r')
LONG_COMMENT = f"#{'x' * 40_000_000}\n"
MAC = "ports 2\n# a row\n02:00:00:00:00:01 0\n02:00:00:00:00:02 1\n"
# What is said in words.
RULE = ("a rule is `permit` or `deny`, a protocol, two prefixes (source, destination) and two ports: "
        "permit 6 10.0.0.0/8 0.0.0.0/0 any 80-443\n")
ROW = "a table is `ports N`, and then rows: an address or a prefix, and a port that is less than N\n"
OF_WORDS = "a name is looked for from the folder in which the program runs\n"
OF_JOB = "the file of a table is looked for from the folder in which the program runs, not from that of the job\n"
CASES_TAKES = "--cases takes a number from 1 to 18,446,744,073,709,551,615, or all"
NARROW = "narrow the injection by `where` lines or given values"
OF_ASK = f"the exploration ended at its limit of records; yes and no are right: for the rest raise `--limit`, or {NARROW}"
NOT_WRITTEN = "what was written is a beginning of the text, and not to be used: make room, or keep the reader open\n"
UNCONFIRMED = {
    1: "the decisions of the record lead to no end, its values are no packet that takes them, or a part that was not tried is not open: explore the job again",
    2: "the refutation of the record is not accepted, or its decisions end at no test: explore the job again",
    3: "the places, the end or the fields are not those of the decisions: explore the job again",
    4: "an undecided path may not have this cause: explore the job again",
    5: "before this record one is missing, it was not tried, or it stands in another place; behind the last record its number is told: explore the job again, with "
       "`--pruned all` and a `--limit` that is not met",
    6: "no record is missing, but the report says another `state`, `refuted` or `limit`: explore the job again",
}
FORMS = literals(WORDS / "usage.rt")[0] + "\n"
LIST = "permit 6 10.0.0.0/8 0.0.0.0/0 any 80\r\n# a rule\r\n\tdeny any 10.0.0.0/8 0.0.0.0/0 any 9-5\r\n"
LONG = "symnet 2; // " + "x" * 70 + "\n" + "\t" + "noop;" * 30 + "\n"
# A job with more than 10,000 records: fourteen tests of a field each.
MANY = ("symnet 2;\nnode r 1 -> 1 { in 0 { " + "".join(f"if head {at}:8 == 0 {{ }} else {{ }} " for at in range(0, 112, 8)) + "forward 0; } }\n"
        "inject r.0 { " + "".join(f"field head {at}:8; " for at in range(0, 112, 8)) + "}\nask reach out r.0;\n")
ELEMENTS = "a :: Discard;\n"


def changed(old, new, text=JOB):
    assert text.count(old) == 1, old
    return text.replace(old, new)


def job(text, **files):
    return {"job": text, **files}


# The words, the files, and what standard error shows.
CASES = [
    ("explore job", job(JOB), ""),
    *((f"{words} --cases{value}", job(JOB), "")
      for words in ("explore job", "ask job --limit 100000", "loops job", "compare job job") for value in (" all", "=all", "=1", " 18446744073709551615")),
    ("explore none", job(JOB), f"symnet: no file none\n{OF_WORDS}"),
    ("explore job", job(TABLE), f'symnet: no file sw.mac\njob:2:15:\nnode sw = mac "sw.mac" chain;\n              ^\n{OF_JOB}'),
    ("walk job none", job(JOB), f"symnet: no file none\n{OF_WORDS}"),
    ("explore job", job(changed("forward 0;", "forward;")),
     "symnet: syntax 6:12 5\njob:6:12:\n    forward;\n           ^\nexpected a number of at most 4,294,967,295\n"),
    ("ask job", job("symnet 2;\nnode a 1 -> 1 {\n"),
     "symnet: syntax 3:1 5\njob:3:1:\n\n^\nexpected `in`, `out` or `}`\n"),
    ("explore job", job(changed("// code", "// c\u00f6de").encode("latin-1")),
     "symnet: syntax 8:18 1\njob:8:18:\n  in 1 { }   // c?de without instructions\n                 ^\na byte here is no UTF-8: save the file as UTF-8\n"),
    ("walk job packet", job("symnet 2;\n\tnode 7;\r\n"),
     "symnet: syntax 2:7 5\njob:2:7:\n node 7; \n      ^\nexpected a name\n"),
    ("explore job", job(LONG),
     "symnet: syntax 2:2 5\njob:2:2:\n " + "noop;" * 19 + "noop..\n ^\nexpected `node`, `link` or `inject`\n"),
    ("explore job", job("symnet 2; " + "node a 1 -> 1 { } " * 9 + "nod"),
     "symnet: syntax 1:173 5\njob:1:173:\n.." + ("symnet 2; " + "node a 1 -> 1 { } " * 9 + "nod")[112:] + "\n" + " " * 62 + "^\nexpected `node`, `link` or `inject`\n"),
    # a node, a code, an instruction behind ranges and nested blocks, a line of the injection, a link
    ("explore job", job(changed("node in 1", "node r 1")),
     "symnet: refused at 10 1\njob:10:1:\nnode r 1 -> 0 {\n^\nan earlier node has this name: give it another\n"),
    ("explore job", job(changed("in 1 { }", "in 2 { }")),
     "symnet: refused at 9 3\njob:8:3:\n  in 2 { }   // code without instructions\n  ^\nport 2: box r has 2 input ports, numbered from 0\n"),
    ("explore job", job(changed("forward 0;", "forward 1;")),
     "symnet: refused at 8 3\njob:6:5:\n    forward 1;\n    ^\nport 1: box r has 1 output port, numbered from 0\n"),
    ("explore job", job(changed("set $v:8 = 0;", "set $w:8 = 0;")),
     "symnet: refused at 7 8\njob:5:22:\n    for v in \"^in\" { set $w:8 = 0; }\n                     ^\na variable stands outside its `for`, a tag is made by no earlier line, or a `where` reads what is not injected\n"),
    ("explore job", job(changed("in {6, 17..18}", "in {6, 18..17}")),
     "symnet: refused at 2 11\njob:4:5:\n    if head L3+72:8 in {6, 18..17} { noop; } else { { fail \"x\"; } }\n    ^\nthe first number of a range exceeds its second: exchange them\n"),
    ("explore job", job(changed("link r.0 -> in.0;", "link r.0 -> in.1;")),
     "symnet: refused at 11 3\njob:12:1:\nlink r.0 -> in.1;\n^\nport 1: box in has 1 input port, numbered from 0\n"),
    ("explore job", job(changed("where head L3+72:8 in", "where head L3+80:8 in")),
     "symnet: refused at 16 8\njob:17:3:\n  where head L3+80:8 in {1..9};\n  ^\na variable stands outside its `for`, a tag is made by no earlier line, or a `where` reads what is not injected\n"),
    # a pattern, and a question
    ("explore job", job(changed('"^in"', '"^("')),
     "symnet: bad pattern at 6\njob:5:5:\n    for v in \"^(\" { set $v:8 = 0; }\n    ^\nthe pattern is no regular expression, or grows too large\n"),
    ("ask job", job(changed("at in in.0;", "at in in.1;")),
     "symnet: bad ask 1 1\njob:20:1:\nask visible head L3+72:8 at in in.1;\n^\nthe place is not in the net, or is an input port of an `invariant`: that is asked by `out BOX.PORT`\n"),
    # of two jobs the one that is refused
    ("compare job other", job(JOB, other=changed("forward 0;", "forward;")),
     "symnet: syntax 6:12 5\nother:6:12:\n    forward;\n           ^\nexpected a number of at most 4,294,967,295\n"),
    ("compare job other", job(JOB, other=changed("forward 0;", "forward 1;")),
     "symnet: refused at 8 3\nother:6:5:\n    forward 1;\n    ^\nport 1: box r has 1 output port, numbered from 0\n"),
    ("compare job other", job(changed("forward 0;", "forward 1;"), other=changed("forward 0;", "forward 2;")),
     "symnet: refused at 8 3\njob:6:5:\n    forward 1;\n    ^\nport 1: box r has 1 output port, numbered from 0\n"),
    ("compare job other", job(JOB, other=changed('"^in"', '"^("')),
     "symnet: bad pattern at 6\nother:5:5:\n    for v in \"^(\" { set $v:8 = 0; }\n    ^\nthe pattern is no regular expression, or grows too large\n"),
    ("compare job other", job(JOB, other=TABLE, **{"sw.mac": MAC}),
     "symnet: refused at 9 3\nother:5:1:\nlink sw.1 -> r.7;\n^\nport 7: box r has 1 input port, numbered from 0\n"),
    ("compare job other", job(JOB, other=changed("in:8 = 1;", "in:8 = 2;")),
     "symnet: bad compare 1\nthe injections of the two jobs differ: write the same lines in the same order\n"),
    # tables: an item behind the node of one, and their own lines
    ("explore job", job(TABLE, **{"sw.mac": MAC}),
     "symnet: refused at 9 3\njob:5:1:\nlink sw.1 -> r.7;\n^\nport 7: box r has 1 input port, numbered from 0\n"),
    ("explore job", job(TABLE, **{"sw.mac": MAC.replace("02 1", "02 2")}),
     "symnet: bad table sw.mac:4 1\nsw.mac:4:1:\n02:00:00:00:00:02 2\n^\n" + ROW),
    ("model mac sw.mac", {"sw.mac": "ports 2\n  02:00:00:00:00:01\n"},
     "symnet: bad table sw.mac:2 1\nsw.mac:2:3:\n  02:00:00:00:00:01\n  ^\n" + ROW),
    ("model mac sw.mac", {"sw.mac": MAC + "02:00:00:00:00:01 1\n"},
     "symnet: bad table sw.mac:5 2\nsw.mac:5:1:\n02:00:00:00:00:01 1\n^\nan earlier row has this address or prefix, and another port: take one of them out\n"),
    # past 64 MiB of files a copy is kept of the job and of the last file: the line of that is shown, and no item is found behind the other
    ("explore job", job(TWO_TABLES, **{"sw.mac": MAC + LONG_COMMENT, "two.mac": LONG_COMMENT + "ports\n"}),
     "symnet: bad table two.mac:2 1\ntwo.mac:2:1:\nports\n^\n" + ROW),
    ("explore job", job(TWO_TABLES, **{"sw.mac": MAC + LONG_COMMENT, "two.mac": "ports 1\n" + LONG_COMMENT}),
     "symnet: refused at 12 3\nthe node has no such port; ports are numbered from 0\n"),
    ("model click c", {"c": "a :: Tee;\nb :: Tree;\n"},
     "symnet: bad table c:2 4\nc:2:1:\nb :: Tree;\n^\nthere is no class of this name\n"),
    ("rules list", {"list": LIST},
     "symnet: bad table list:3 1\nlist:3:2:\n deny any 10.0.0.0/8 0.0.0.0/0 any 9-5 \n ^\n" + RULE),
    ("model acl list", {"list": "permit 256 0.0.0.0/0 0.0.0.0/0 any any\n"},
     "symnet: bad table list:1 1\nlist:1:1:\npermit 256 0.0.0.0/0 0.0.0.0/0 any any\n^\n" + RULE),
    ("rules list", {"list": "deny 1 1.1.1.1/32 2.2.2.2/32 any any\n" * 1025},
     "symnet: bad table list:1025 3\nlist:1025:1:\ndeny 1 1.1.1.1/32 2.2.2.2/32 any any\n^\na list has at most 1,024 rules: take out hidden ones (`rules` names them), or cut the list in two boxes\n"),
]


# Words that have no reading, and what is said of them above the commands.
USAGES = [
    ("", ""), ("--help", ""), ("-h", ""), ("--help explore", ""),
    ("exlore job", "`exlore`: there is no such command"),
    ("ex\x1b[31mplore job", "`ex?[31mplore`: there is no such command"),
    ("\u202eexplore\u009b job\u2066", "`?explore?`: there is no such command"),
    (f"{'x' * 101} job", f"`{'x' * 100}..`: there is no such command"),
    (f"explore job --hops={'9' * 300}", f"`{'9' * 100}..`: --hops takes a number from 1 to 256"),
    ("explore", "`explore`: JOB is missing behind it"),
    ("walk job", "`walk`: PACKET is missing behind it"),
    ("model mac", "`mac`: FILE is missing behind it"),
    ("explore job other", "`other`: the command takes no further file"),
    ("explore -- -x -y", "`-y`: the command takes no further file"),
    ("explore -x", "`-x`: no word begins with one dash; a file of such a name stands behind `--`"),
    ("explore job --hops 0", "`0`: --hops takes a number from 1 to 256"),
    ("loops job --hops=257", "`257`: --hops takes a number from 1 to 256"),
    ("explore job --hops +7", "`+7`: --hops takes a number from 1 to 256"),
    ("walk job packet --limit 100001", "`100001`: --limit takes a number from 1 to 100,000"),
    ("walk job packet --limit=", "``: --limit takes a number from 1 to 100,000"),
    ("explore job --limit 100001", "`100001`: --limit takes a number from 1 to 100,000"),
    ("explore job --limit 5 --limit=6", "`--limit`: the option is given twice"),
    ("explore job --hops", "`--hops`: its value is missing"),
    ("explore --hops --limit 4 job", "`--hops`: its value is missing"),
    ("ask job --limit 0", "`0`: --limit takes a number from 1 to 4,294,967,295"),
    ("loops job --limit=4294967296", "`4294967296`: --limit takes a number from 1 to 4,294,967,295"),
    ("compare job other --limit few", "`few`: --limit takes a number from 1 to 4,294,967,295"),
    ("rules list --limit 5", "`--limit`: the command has no such option"),
    ("explore job --cases 0", f"`0`: {CASES_TAKES}"),
    ("ask job --cases 18446744073709551616", f"`18446744073709551616`: {CASES_TAKES}"),
    ("loops job --cases=some", f"`some`: {CASES_TAKES}"),
    ("compare job other --cases ALL", f"`ALL`: {CASES_TAKES}"),
    ("explore job --cases 1e3", f"`1e3`: {CASES_TAKES}"),
    ("explore job --cases=", f"``: {CASES_TAKES}"),
    ("explore job --cases", "`--cases`: its value is missing"),
    ("ask --cases --hops 4 job", "`--cases`: its value is missing"),
    ("explore job --cases all --cases=all", "`--cases`: the option is given twice"),
    ("walk job packet --cases all", "`--cases`: the command has no such option"),
    ("replay job report --cases=all", "`--cases`: the command has no such option"),
    ("grow 5 5 --cases all", "`--cases`: the command has no such option"),
    ("replay job report --hops=5", "`--hops`: the command has no such option"),
    ("explore job --pruned some", "`some`: --pruned takes all or count"),
    ("loops job --open all", "`all`: --open takes numbers or visits"),
    ("replay job report --records all", "`all`: --records takes each or whole"),
    ("walk job packets --packets=many", "`many`: --packets takes one or lines"),
    ("compare job other --cut none", "`none`: --cut takes omit or count"),
    ("model", "`model`: behind it stands mac, fib, click or acl"),
    ("model tree file", "`tree`: behind `model` stands mac, fib, click or acl"),
    ("model fib file --style x", "`x`: --style takes chain, grouped or egress"),
    ("model acl file --style egress", "`egress`: --style takes chain or grouped here"),
    ("grow a 5", "`a`: SEED is a number from 0 to 18,446,744,073,709,551,615"),
    ("grow 18446744073709551616 5", "`18446744073709551616`: SEED is a number from 0 to 18,446,744,073,709,551,615"),
    ("grow 5 0", "`0`: NODES is a number from 1 to 10,000"),
    ("grow 5", "`grow`: NODES is missing behind it"),
]
# Texts that leave the grammar behind their last word, and what may stand there.
EXPECTED = [
    ("", "`symnet`"), ("symnet", "`1` or `2`"), ("symnet 2; node a", "a number of at most 4,294,967,295 or `=`"),
    ("symnet 2; node a =", "`mac` or `fib`"), ("symnet 2; node a = mac \"f\"", "`chain`, `grouped` or `egress`"),
    ("symnet 2; node a 1", "`->`"), ("symnet 2; node a 1 -> 1 { in 0", "`{`"),
    ("symnet 2; node a 1 -> 1 { in 0 {", "an instruction or `}`"),
    ("symnet 2; node a 1 -> 1 { in 0 { if true { }", "`else`"),
    ("symnet 2; node a 1 -> 1 { in 0 { if", "a condition"),
    ("symnet 2; node a 1 -> 1 { in 0 { if $v:8", "a comparison, `in`, `+` or `-`"),
    ("symnet 2; node a 1 -> 1 { in 0 { if $v:8 ==", "a value"),
    ("symnet 2; node a 1 -> 1 { in 0 { set", "a field"),
    ("symnet 2; node a 1 -> 1 { in 0 { set $v:8 =", "a value"),
    ("symnet 2; node a 1 -> 1 { in 0 { if [", "a condition"), ("symnet 2; node a 1 -> 1 { in 0 { if [ true", "`and`, `or` or `]`"),
    ("symnet 2; node a 1 -> 1 { in 0 { set $v:8 = ( 1", "`+`, `-` or `)`"), ("symnet 2; node a 1 -> 1 { in 0 { set $v", "`:`"),
    ("symnet 2; node a 1 -> 1 { in 0 { set $v:", "a number from 1 to 128"),
    ("symnet 2; node a 1 -> 1 { in 0 { set head L3 +", "a number of at most 1,048,576"),
    ("symnet 2; node a 1 -> 1 { in 0 { set head", "a name, a number of at most 1,048,576 or `-`"),
    ("symnet 2; node a 1 -> 1 { in 0 { fail", "a text in quotes"),
    ("symnet 2; node a 1 -> 1 { in 0 { if $v:8 in { 5", "`,`, `..` or `}`"),
    ("symnet 2; node a 1 -> 1 { } link a.0 ->", "a name"),
    ("symnet 2; node a 1 -> 1 { } inject a.0 {", "`tag`, `field`, `where` or `}`"),
    ("symnet 2; node a 1 -> 1 { } inject a.0 { } ask", "`reach`, `invariant` or `visible`"),
    ("symnet 2; node a 1 -> 1 { } inject a", "`.`"), ("symnet 2; node a 1 -> 1 { } inject a.0 { } ;", "`ask`"),
    ("symnet 2; node a 1 -> 1 { } inject a.0 { } ask reach in a.0", "`with` or `;`"),
    ("symnet 2; node a 1 -> 1 { } inject a.0 { } ask visible head L3+72:8", "`at`"),
]
RECORDS = '{"hops":16,"limit":10000,"records":[],"refuted":0,"state":"done","symnet":1}\n'
# The words, the files, the first line, and the last.
LAST = [
    ("explore job", job("symnet 2; #"), "symnet: syntax 1:11 2", "no word begins with this character, or a name has more than 64 bytes"),
    ("explore job", job("symnet 2x;"), "symnet: syntax 1:8 3", "a number is at most 2^128 - 1, has a digit behind `0x`, and no letter at once behind it"),
    ("explore job", job('symnet 2; "'), "symnet: syntax 1:11 4", "a text is closed by a quote on its line, and has no control character"),
    ("explore job", job("symnet 2; node a 1 -> 1 { in 0 { if " + "not " * 65 + "true { } else { } } } inject a.0 { }"),
     "symnet: syntax 1:1 6", "at most 64 blocks, brackets, parentheses and `not`s are open at once"),
    ("explore job", job("symnet 2; //" + " " * 1_000_000 + "\nx"), "symnet: syntax 2:1 5", "no job has this word here"),
    ("explore job", job(changed("link r.0", "link x.0")), "symnet: refused at 11 2", "no node has this name; names differ by case"),
    ("explore job", job(changed("link r.0", "link r.3")), "symnet: refused at 11 3", "port 3: box r has 1 output port, numbered from 0"),
    ("explore job", job(changed("inject r.0", "inject in.0x10")), "symnet: refused at 12 3", "port 16: box in has 1 input port, numbered from 0"),
    ("explore job", job(changed("in 1 { }", "out 1 { }")), "symnet: refused at 9 3", "port 1: box r has 1 output port, numbered from 0"),
    ("explore job", job(changed("forward 0;", "fork 0, 4;")), "symnet: refused at 8 3", "port 4: box r has 1 output port, numbered from 0"),
    ("explore job", job(changed("link r.0 -> in.0;", "link in.0 -> r.0;")), "symnet: refused at 11 3", "port 0: box in has no output port"),
    ("explore job", job(changed("link r.0 -> in.0;", "link r.0 -> in.0; link r.0 -> in.0;")), "symnet: refused at 12 4",
     "an earlier link leaves this output port: for a copy each, `fork` to two output ports"),
    ("explore job", job(changed("in 1 { }", "in 0 { }")), "symnet: refused at 9 5", "an earlier code is of this port: join the two into one block"),
    ("explore job", job(changed("set $v:8 = 0;", "set $v:8 = $v:9;")), "symnet: refused at 7 6", "fields of two widths meet here: read each field at its own width"),
    ("explore job", job(changed("in:8 = 1;", "in:8 = 256;")), "symnet: refused at 15 7", "a number exceeds its width: a field of 8 bits holds at most 255"),
    ("explore job", job(changed("in 1 { }", "out 0 { forward 0; }")), "symnet: refused at 10 9",
     "the code of an output port has no `forward` and no `fork`: decide in that of an input port"),
    ("explore job", job(changed("forward 0;", "fork;")), "symnet: refused at 8 10", "a `fork` has at least one port: write `fail`, or an empty block"),
    ("explore job", job(changed("field global in:8 = 1;", "field head L3+76:8;")), "symnet: refused at 15 12",
     "an earlier field of the injection shares a bit or the name: mend its offset, width or tag"),
    ("explore job", job(changed("node r 2 -> 1", "node r 1025 -> 1")), "symnet: refused at 0 13",
     "the job is too large from here on: at most 10,000 nodes, 1,024 ports a node and side, 1,024 metadata names, 256 patterns, 1,000,000 instructions, "
     "4,000,000 ranges, 1,024 ports of a `fork`, 256 fields, 256 `where`s and 256 questions"),
    ("explore job", job(changed("set $v:8 = 0;", 'for w in "x" { for x in "y" { } }')), "symnet: refused at 8 14", "a `for` stands in at most one other `for`"),
    ("explore job", job(changed("tag L3 = 112;", "tag L3 = 1048576;")), "symnet: refused at 13 15", "an address lies between -1,048,576 and 1,048,575 bits"),
    ("walk job packet", job(JOB, packet="5 x"), "symnet: bad packet 4", "the file of a packet has numbers alone, as they stand in a job, and no comments"),
    ("walk job packet", job(JOB, packet=""), "symnet: bad packet 1",
     "the file has too few numbers: one for each `field` without a value, in the order of the job's lines"),
    ("walk job packet", job(JOB, packet="256"), "symnet: bad packet 2", "a number exceeds the width of its field: a field of 8 bits holds at most 255"),
    ("walk job packet", job(JOB, packet="10"), "symnet: bad packet 3",
     "a `where` of the injection is not true of this packet: change the packet, or the `where`"),
    ("explore job", job(changed("r.7", "r.0", changed("sw.1", "sw.5", TABLE)), **{"sw.mac": MAC}), "symnet: refused at 9 3",
     "port 5: box sw has 2 output ports, numbered from 0"),
    ("explore job --limit 1", job(JOB), "symnet: partial", f"what is written is right as far as it goes: for the rest raise `--limit`, or {NARROW}"),
    ("ask job", job(MANY), "symnet: partial", OF_ASK),
    ("ask job --limit 1", job(JOB), "symnet: partial", OF_ASK),
    ("loops job --limit=1 --cases all", job(JOB), "symnet: partial",
     f"the exploration ended at its limit of records, and more paths may be cut: raise `--limit`, or {NARROW}"),
    ("compare job job --cases=all --limit 1", job(JOB), "symnet: partial",
     f"an exploration ended at its limit of records, so nothing is known: raise `--limit`, {NARROW}, or compare smaller parts"),
    ("walk job packet --limit 1", job(changed("forward 0;", "fork 0, 0;"), packet="6"), "symnet: too many walks 2",
     "raise `--limit`, or lower `--hops` where the net has a loop with a `fork`"),
    ("replay job report", job(JOB, report="{"), "symnet: bad report 1 ",
     "the file is no JSON: see whether it was cut off, since a run that ends with another status than 0 or 12 leaves no report"),
    ("replay job report", job(JOB, report=RECORDS.replace("16", '"x"')), "symnet: bad report 2 /hops",
     "the value that the pointer names is of no report of this job: its names of boxes, tags and metadata have to be those of the job"),
    ("ask job", job(changed("visible head L3+72:8", "visible head L3+80:8")), "symnet: bad ask 1 2",
     "the field is none of the injection: write it as it stands there, with the same tag, offset and width"),
    ("explore folder/", {"folder/x": ""}, "symnet: cannot read folder/", "it is a folder, or its rights do not let it be read"),
    ("explore big", {"big": b"x" * 67_108_865}, "symnet: too big big",
     "a file has at most 67,108,864 bytes, and that of a report 268,435,456: split it, or explore with `--pruned count`"),
    ("model mac m", {"m": "ports 1\n" + "02:00:00:00:00:01 0\n" * 32_769}, "symnet: bad table m:32770 3",
     "a MAC table has at most 32,768 rows, a forwarding table 200,000: use fewer, or two boxes"),
    ("model click c", {"c": ELEMENTS + "b :: Tee c;\n"}, "symnet: bad table c:2 1", "a statement does not go on so, or is not ended by `;`"),
    ("model click c", {"c": ELEMENTS + "a :: Tee;\n"}, "symnet: bad table c:2 2", "an earlier statement declares this name"),
    ("model click c", {"c": "".join(f"a{number} :: Discard;\n" for number in range(10_001))}, "symnet: bad table c:10001 3",
     "a configuration has at most 10,000 elements"),
    ("model click c", {"c": ELEMENTS + "b :: Strip(x);\n"}, "symnet: bad table c:2 5", "the class does not take these arguments"),
    ("model click c", {"c": ELEMENTS + "b :: Tee; b -> [1] a;\n"}, "symnet: bad table c:2 6",
     "elements are entered by input 0, and each of their outputs is connected once"),
    ("model click c", {"c": ELEMENTS + "b -> a;\n"}, "symnet: bad table c:2 7", "no statement declares this name"),
]
# Rows of the tables of rows, and what is said below their status.
ROWS = [
    ("compare", "choices of other widths at one port",
     "two paths that leave by one port chose values of other widths: let both jobs choose the same fields in the same order"),
    ("replay", "two paths are exchanged", UNCONFIRMED[5]),
    ("replay", "more records than the limit", UNCONFIRMED[6]),
    *(("forged", name, UNCONFIRMED[kind]) for name, kind in (("one pick of two", 2), ("no side", 2), ("a path is called undecided by cases", 4))),
]


def shown(program, words, files, output=os.devnull):
    with tempfile.TemporaryDirectory() as folder, open(output, "wb") as out:
        for name, text in files.items():
            file = Path(folder) / name
            file.parent.mkdir(exist_ok=True)
            file.write_bytes(text if isinstance(text, bytes) else text.encode())
        run = subprocess.run([program, *words.split()], cwd=folder, stdout=out, stderr=subprocess.PIPE, check=False)
        return run.stderr.decode()


def changed_reports(program):
    """Reports of the job in which the first record is not confirmed, by its kind."""
    with tempfile.TemporaryDirectory() as folder:
        (Path(folder) / "job").write_text(JOB)
        report = subprocess.run([program, "explore", "job"], cwd=folder, stdout=subprocess.PIPE, stderr=subprocess.DEVNULL, check=False).stdout.decode()
    yield report.replace('"verdict":{"sat":[', '"verdict":{"sat":[20', 1), 1
    yield report.replace('"places":["in r.0"', '"places":["in r.1"', 1), 3


def last(said):
    return said.splitlines()[-1] if said else ""


def ends(said):
    """The first line and the last."""
    return said.split("\n")[0], last(said)


def cases(program):
    """The words, the files, what is taken of standard error, and what that has to be; for the last one also the output."""
    for words, files, wanted in CASES:
        yield words, files, str, wanted
    for words, why in USAGES:
        yield words, {}, str, f"symnet: usage\n{why}{chr(10) if why else ''}{FORMS}"
    for text, wanted in EXPECTED:
        yield "explore job", job(text), last, f"expected {wanted}"
    for words, files, *wanted in LAST:
        yield words, files, ends, tuple(wanted)
    for table, name, wanted in ROWS:
        row = row_tables.read(table)[name]
        yield " ".join(row.words), row.files, ends, (row.error, wanted)
    for report, kind in changed_reports(program):
        yield "replay job report", job(JOB, report=report), ends, (f"symnet: not confirmed 0 {kind}", UNCONFIRMED[kind])
    yield "explore job", job(JOB), str, "symnet: cannot write\n" + NOT_WRITTEN, "/dev/full"


def sentences():
    """Patterns of all that `fault_words` says: its texts of more than one word, and what may stand at a place of a job."""
    for file in sorted(WORDS.glob("*.rt")):
        if file.name == "probe.rt":
            continue
        for text in literals(file):
            if re.search(r"\w \w", text):
                yield re.sub(r"\\{\w*\\}", ".+", re.escape(text.replace("\\n", "\n")))
    # a word, what is said of it if that is not the word itself, and two sets of kinds
    for word, says in re.findall(r'\(\s*"((?:[^"\\]|\\.)*)",\s*"([^"]*)",\s*\w+,\s*\w+,?\s*\)', (WORDS / "probe.rt").read_text()):
        yield r"expected (?:.*, |.* or )?" + re.escape(says or f"`{word}`")


def main(words):
    program = built(words, "faults")
    if program is None:
        return 0
    wrong, all_said = 0, []
    for given, files, take, wanted, *output in cases(program):
        said = shown(program, given, files, *output)
        all_said.append(said)
        if take(said) != wanted:
            wrong += 1
            print(f"faults: {given}: wanted\n{wanted}\ncame\n{said}")
    print(f"faults: {len(all_said) - wrong} of {len(all_said)} are shown as they should be")
    text = "\n".join(all_said)
    unseen = [it for it in sentences() if not re.search(it, text)]
    for it in unseen:
        print(f"faults: no case shows: {it}")
    others = list(outside_faults.wrong_cases(str(program)))
    for told in others:
        print(f"faults: {told}")
    count = len(outside_faults.CASES)
    print(f"faults: {count - len(others)} of {count} of files, outputs and limits end as they should")
    return 1 if wrong or unseen or others else 0


if __name__ == "__main__":
    sys.exit(main(sys.argv[1:]))
