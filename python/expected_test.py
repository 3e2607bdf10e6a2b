"""Tests of expected answers for python/test: the reader with --expect and --junit, and `symnet.expect`."""

import os
import subprocess
import tempfile
import xml.etree.ElementTree
from pathlib import Path

import symnet
from reader_test import ESCAPES, TOP, is_plain, ran
from symnet import expected
from symnet.packet import JobText

SERVER = TOP / "examples/build-server"
JOB = f"""symnet 2; node a 1 -> 1 {{ }} inject a.0 {{ tag L3 = 0; field head L3+72:8; }}
// does "it" <stop>? {ESCAPES.replace(chr(0x2028), '')}\ufffe]]>
ask reach in a.0 with head L3+72:8 == 6;
ask reach in a.0;
ask reach in a.0;
"""
ANSWERS = '{"answers":[{"answer":"yes","number":0,"values":[6]},{"answer":"no"},{"answer":"unknown","numbers":[4,9]}],"symnet":1}'
NAMES = ["reach in a.0 with protocol == TCP", "reach in a.0", "reach in a.0 (question 2)"]


def check_reader(expect):
    """The status, the last line, and the results of tests, as a build server reads them."""
    with tempfile.TemporaryDirectory() as room:
        job, words, results = (Path(room, it) for it in ("a.sefl", "a.expected", "results.xml"))
        job.write_text(JOB)
        for what, text, status, last, failing in (
                ("one other, one unknown", "yes\n# of the second\nyes # since\n\nno\r\n", 20, "NOT AS EXPECTED: 2 of 3 answers, of questions 1 (expected yes, answered no), 2 (expected no, answered unknown)", [False, True, True]),
                ("an unknown answer", "yes\nno\nyes", 20, "NOT AS EXPECTED: 1 of 3 answers, of question 2 (expected yes, answered unknown)", [False, False, True])):
            words.write_text(text)
            for given in (words, ",".join(it.split("#")[0].strip() for it in text.split("\n") if it.split("#")[0].strip())):
                ended, printed, said = ran("-", job, "--expect", given, "--junit", results, "--only-read", given=ANSWERS.encode())
                expect(f"{what}: the reader", (ended, printed.decode().split("\n")[-2], said, is_plain(printed)), (status, last, b"", True))
                suite = xml.etree.ElementTree.parse(results).getroot().find("testsuite")
                cases = suite.findall("testcase")
                expect(f"{what}: the cases", ([it.get("name") for it in cases], [it.find("failure") is not None for it in cases]), (NAMES, failing))
                expect(f"{what}: the counts", (suite.get("tests"), suite.get("failures"), suite.get("errors")), ("3", str(sum(failing)), "0"))
                expect(f"{what}: what is told", "protocol  TCP" in cases[0].find("system-out").text and '"it" <stop>? ?]0;title?' in cases[0].find("system-out").text, True)
        both = ANSWERS.replace('{"answer":"unknown","numbers":[4,9]}', '{"answer":"yes"}')
        ended, printed, _ = ran("-", "--expect", "yes,no,yes", "--junit", results, given=both.encode())
        expect("all as expected, without a job", (ended, printed.decode().split("\n")[-2], [it.get("name") for it in xml.etree.ElementTree.parse(results).getroot().iter("testcase")]),
               (0, "all 3 answers are as expected", ["question 0", "question 1", "question 2"]))
        for what, given, wanted, part in (("no answers", "", "yes,no", "no JSON"), ("answers that are cut off", ANSWERS[:50], "yes", "no JSON"), ("another answer", '{"answer":"same","symnet":1}', "yes", "no answer of ask"),
                                          ("fewer answers", ANSWERS, "yes,no", "2 answers are expected, and there are 3 questions"), ("a file that is not there", ANSWERS, f"{room}/none", "No such file"), ("a job", ANSWERS, str(job), "line 1: 'symnet 2; node a")):
            results.write_text("of an earlier run")
            ended, printed, said = ran("-", job, "--expect", wanted, "--junit", results, given=given.encode())
            suite = xml.etree.ElementTree.parse(results).getroot().find("testsuite")
            expect(f"{what}: an error", (ended, printed, part in said.decode(), suite.get("errors"), part in suite.find("testcase/error").get("message")), (3 if "No such" in part else 14, b"", True, "1", True))
        expect("results that cannot be written", ran("-", "--expect", "yes,no,yes", "--junit", f"{room}/none/results.xml", given=both.encode())[0], 3)
        for more in (["--junit", "a"], ["--expect", "yes", "--pruned"], ["--expect", "yes", "--record", "1"], ["--expect", "-"], ["--expect", "yes", "--junit", "-"], ["--expect"]):
            expect(f"the reader with {more}", ran("-", *more)[0], 2)


def check_package(expect):
    """What is raised, and what it says."""
    answers = [symnet.Answer("yes", 0, (6,), job=JobText(JOB)), symnet.Answer("no", job=JobText(JOB)), symnet.Answer("unknown", open=(4, 9))]
    expect("as expected", symnet.expect(answers[:2], ["yes", "no"]), None)
    expect("none", symnet.expect([], []), None)
    try:
        symnet.expect(answers, ["no", "no", "yes"])
        expect("not as expected", "nothing", "NotExpected")
    except symnet.NotExpected as error:
        expect("not as expected", str(error), "question 0, reach in a.0 with protocol == TCP: expected no, answered yes, shown by the packet protocol TCP\nquestion 2: expected yes, answered unknown")
        expect("the packet", (error.unmet[0].packet["protocol"], error.unmet[1].packet, isinstance(error, AssertionError)), (6, None, True))
    for wanted in (["yes"], ["yes", "no", "unknown"], "yes", ["yes", "no", None]):
        try:
            symnet.expect(answers, wanted)
            expect(f"{wanted} is expected", "nothing", "ValueError")
        except ValueError:
            pass
    many = "".join(f"line {number}\n" for number in range(100000))
    try:
        expected.read_expected(many)
    except symnet.NotInput as error:
        expect("a file that expects nothing", str(error), "line 1: 'line 0' is neither yes nor no")


def check(expect):
    check_reader(expect)
    check_package(expect)


def check_run(expect):
    """The example of a build server: as it is, and with the change that its page tells of."""
    files = {it.name: it.read_bytes() for it in SERVER.glob("*.fib")}
    wanted = expected.read_expected((SERVER / "edge.expected").read_text())
    expect("the network as it is", symnet.expect(symnet.ask((SERVER / "edge.sefl").read_bytes(), files=files), wanted), None)
    try:
        symnet.expect(symnet.ask((SERVER / "changed.sefl").read_bytes(), files=files), wanted)
        expect("the changed network", "nothing", "NotExpected")
    except symnet.NotExpected as error:
        expect("the changed network", [it.number for it in error.unmet], [1])
    if "SYMNET" not in os.environ:
        return
    with tempfile.TemporaryDirectory() as room:
        for job, status in (("edge.sefl", 0), ("changed.sefl", 20), ("absent.sefl", 3)):
            ended = subprocess.run([SERVER / "check", job, f"{room}/results.xml"], stdin=subprocess.DEVNULL, capture_output=True, check=False)
            expect(f"the build server's script on {job}", ended.returncode, status)
            suite = xml.etree.ElementTree.parse(f"{room}/results.xml").getroot()
            expect(f"its results on {job}", (suite.get("failures"), suite.get("errors")), ("1" if status == 20 else "0", "1" if status == 3 else "0"))
