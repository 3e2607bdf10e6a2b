"""Tests of the library's call for python/test, as a stranger or a careless caller may make it: lists of any bytes, thousands of calls, many threads, little memory and little stack."""

import ctypes
import random
import subprocess
import sys
import threading
from concurrent.futures import ThreadPoolExecutor

import symnet
from reader_test import TOP
from symnet import library

TTL = (TOP / "examples/ttl.sefl").read_bytes()
WORDS, FILES = [b"explore", b"a"], [b"a", TTL]
ROOM = 1 << 12
# What is done in a process of its own: it prints how much memory it had after a thousand calls more than after ten, in KB, and how the calls behind that ended.
MANY = """
import resource, symnet
job, report = open("examples/ttl.sefl", "rb").read(), open("examples/ttl.json", "rb").read()
def calls(count):
    for number in range(count):
        symnet.run(["explore", "a"], {"a": job})
        symnet.run(["explore", "a"], {"a": job[:number % len(job)]})
        symnet.run(["replay", "a", "b"], {"a": job, "b": report[:number % len(report)]})
        symnet.run(["ask"], {"a": job})
calls(10)
before = resource.getrusage(resource.RUSAGE_SELF).ru_maxrss
calls(2500)
print(resource.getrusage(resource.RUSAGE_SELF).ru_maxrss - before)
"""
LITTLE = """
import resource, symnet
big = b"symnet 2; node r 1 -> 1 { in 0 { " + b"noop;" * 1000000 + b" } } inject r.0 {}"
small = open("examples/ttl.sefl", "rb").read()
symnet.run(["explore", "a"], {"a": small})
size = int(open("/proc/self/statm").read().split()[0]) * resource.getpagesize()
resource.setrlimit(resource.RLIMIT_AS, (size + (60 << 20),) * 2)
print(*(symnet.run(["explore", "a"], {"a": it}).status for it in (big, small, big, small)))
"""


def called(words, files):
    """The status of the call on these bytes, what it put and what it said; None where it wrote behind its rooms."""
    sizes, room = library._Sizes(7, 7), ctypes.create_string_buffer(b"\xee" * 4 * ROOM, 4 * ROOM)
    base = ctypes.addressof(room)
    status = library._library().symnet_call(words, len(words), files, len(files), base + ROOM, ROOM, base + 3 * ROOM - 1, ROOM, ctypes.byref(sizes))
    around = room.raw[:ROOM] + room.raw[2 * ROOM:3 * ROOM - 1] + room.raw[-1:]
    return (status, room.raw[ROOM:ROOM + sizes.output], sizes.message) if set(around) == {0xee} else None


def counted(count, text=b""):
    return (count % 2**64).to_bytes(8, "little") + text


def check_lists(expect):
    """Counts past what is there, also those that wrap with the place where they stand; parts that are missing; and lists that are spoiled."""
    whole, listed = library._listed(WORDS), library._listed(FILES)
    for count in (len(whole) - 7, 2**31, 2**32, 2**63 - 1, 2**63, -1, -8, -9, -len(whole)):
        for place, what in ((whole, "words"), (listed, "files")):
            spoiled = counted(count, place[8:])
            status = called(spoiled, listed) if place is whole else called(whole, spoiled)
            expect(f"{what}: a part of {count} bytes", status, (256, b"", 0))
    expect("a name without its file", called(whole, library._listed(FILES[:1])), (256, b"", 0))
    expect("no files", called(whole, b"")[0], 3)
    expect("no words", called(b"", listed)[0], 2)
    expect("empty words", called(counted(0) * 500, listed)[0], 2)
    expect("empty names of empty files", called(library._listed([b"explore", b""]), counted(0) * 1000)[0], 7)
    expect("one file of two under one name", called(whole, library._listed([b"a", TTL, b"a", b"none"]))[0], 0)
    draw, statuses = random.Random(5), set()
    for _ in range(3000):
        spoiled = [bytearray(whole), bytearray(listed)]
        for _ in range(draw.randrange(1, 4)):
            part = spoiled[draw.randrange(2)]
            at = draw.randrange(len(part))
            part[at:at + draw.randrange(3)] = bytes(draw.choice((0, 1, 255, draw.randrange(256))) for _ in range(draw.randrange(3)))
        came = called(*map(bytes, spoiled))
        statuses.add(-1 if came is None else came[0])
    expect("spoiled lists", (statuses <= {0, 1, 2, 3, 7, 8, 9, 256}, 256 in statuses), (True, True))


def check_memory(expect):
    """10,000 calls keep nothing, and want of memory is an answer, again and again."""
    for what, text, wanted in (("10,000 calls", MANY, lambda told: int(told) < 4000), ("little memory", LITTLE, lambda told: told == "1 0 1 0")):
        ended = subprocess.run([sys.executable, "-c", text], cwd=TOP, env={**library.os.environ, "PYTHONPATH": str(TOP / "python")}, capture_output=True, text=True, check=False)
        expect(f"{what}: {ended.stdout.strip()} {ended.stderr[-300:]}", ended.returncode == 0 and wanted(ended.stdout.strip()), True)


def check_threads(expect):
    """Calls of all kinds in sixteen threads give what each gives alone, also with the smallest stack that serves every job."""
    report = (TOP / "examples/ttl.json").read_bytes()
    kinds = [(["explore", "a"], {"a": TTL}), (["explore", "a", "--hops=1"], {"a": TTL}), (["walk", "a", "p"], {"a": TTL, "p": b"1"}), (["replay", "a", "r"], {"a": TTL, "r": report}), (["ask", "a"], {"a": TTL[:-3]}),
             (["grow", "7", "40"], {}), (["rules", "l"], {"l": b"permit any 0.0.0.0/0 0.0.0.0/0 any any\n"}), (["explore", "b"], {"a": TTL})]
    alone = [symnet.run(*it) for it in kinds]
    kept = threading.stack_size(512 << 10)
    try:
        with ThreadPoolExecutor(16) as pool:
            came = list(pool.map(lambda number: symnet.run(*kinds[number % len(kinds)]), range(4000)))
    finally:
        threading.stack_size(kept)
    expect("calls in sixteen threads", [number for number, it in enumerate(came) if it != alone[number % len(kinds)]], [])


def check_run(expect):
    check_lists(expect)
    check_memory(expect)
    check_threads(expect)
