#!/usr/bin/env python3
"""Tests what tools/release makes, with a stand-in for the program and the page, and what it refuses: no kit is needed."""

import gzip
import importlib.machinery
import importlib.util
import os
import shutil
import subprocess
import sys
import tarfile
import tempfile
import time
import zipfile
from pathlib import Path
from types import ModuleType
from typing import Any, Dict, List, Optional

import release_files
import release_texts
import usage_forms
from checkout import TOP, version

FACTS = release_texts.Facts(version(), "0123456789abcdef0123456789abcdef01234567", "2026-01-31", "The makers <makers@example.org>", "kit 1", "12 passed, 0 failed")
STAND_IN = b"#!/bin/sh\necho \"program: $*\"\nexit 9\n# GLIBC_2.4 GLIBC_2.34 GLIBC_2.17\n"
# What bash completes: the words up to the cursor, and what comes.
COMPLETED = [("ex", "explore"), ("model ", "mac fib click acl"), ("model a", "acl"), ("model acl --", "--style"), ("model acl --style ", "chain grouped"),
             ("model mac --style e", "egress"), ("explore --pruned = c", "count"), ("explore --pruned =", "all count"), ("explore job --l", "--limit"),
             ("explore examp", "examples"), ("explore --hops ", ""), ("grow -", "")]
COMPLETE = '. "$1"; shift; COMP_WORDS=("$@"); COMP_CWORD=$(($# - 1)); _symnet; echo "${COMPREPLY[*]}"'
failed: List[str] = []


def expect(what: str, found: Any, wanted: Any) -> None:
    if found != wanted:
        failed.append(what)
        print(f"release_test: {what}: wanted {wanted!r}, came {found!r}")


def ran(words: List[Any], **how: Any) -> "subprocess.CompletedProcess[str]":
    return subprocess.run([str(it) for it in words], stdin=subprocess.DEVNULL, capture_output=True, text=True, check=False, **how)


def release() -> ModuleType:
    """The script, as a module."""
    loader = importlib.machinery.SourceFileLoader("release", str(TOP / "tools/release"))
    made = importlib.util.module_from_spec(importlib.util.spec_from_loader("release", loader))
    loader.exec_module(made)
    return made


def check_manual(of: usage_forms.Usage, room: Path) -> None:
    page = release_texts.manual(of, FACTS)
    for form in of.forms:
        expect(f"the manual has {form.name}", f".B {release_texts.roff(release_texts.synopsis(form))}\n" in page, True)
        expect(f"the README tells of {form.name}", " ".join(form.name) in release_texts.summaries(), True)
    for option in release_texts.options(of):
        expect(f"the manual has {option.flag}", release_texts.roff(f"{option.flag} {option.value}") in page, True)
    expect("the manual has the statuses", [it for it in range(19) if f".B {it}\n" not in page], [17])
    expect("a line of the manual", release_texts.roff(".a-b\\c"), "\\&.a\\-b\\ec")
    if shutil.which("groff"):
        (room / "symnet.1").write_text(page)
        came = ran(["groff", "-man", "-ww", "-z", room / "symnet.1"])
        expect("groff reads the manual", (came.returncode, came.stderr), (0, ""))


def check_completions(of: usage_forms.Usage, room: Path) -> None:
    for shell, text in (("bash", release_texts.bash(of)), ("zsh", release_texts.zsh(of)), ("fish", release_texts.fish(of))):
        (room / shell).write_text(text)
        for form in of.forms:
            words = [*form.name, *(it[2:] for it in form.options), *(word for it in form.options.values() for word in it.words)]
            expect(f"the completion of {shell} for {form.name}", [it for it in words if it not in text], [])
        if shutil.which(shell):
            came = ran([shell, "-n", room / shell])
            expect(f"{shell} reads its completion", (came.returncode, came.stderr), (0, ""))
    for words, wanted in COMPLETED:
        came = ran(["bash", "-c", COMPLETE, "bash", room / "bash", "symnet", *words.split(" ")], cwd=TOP)
        expect(f"bash completes: {words}", came.stdout.strip(), wanted)


def check_archives(room: Path) -> None:
    script = release()
    script.PROGRAM, script.PAGE = room / "program", room / "page"
    script.PROGRAM.write_bytes(STAND_IN)
    script.PAGE.write_text("a page")
    files = script.write_archives(FACTS, room)
    first = [it.read_bytes() for it in files]
    expect("the same files make the same bytes", [it.read_bytes() for it in script.write_archives(FACTS, room)], first)
    stem = f"symnet-{FACTS.version}"
    with tarfile.open(files[0]) as archive:
        archive.extractall(room)
    expect("--version", ran([room / stem / "bin/symnet", "--version"]).stdout, f"symnet {version()}, commit 0123456789ab, proved\n")
    (room / "link").symlink_to(room / stem / "bin/symnet")
    for words in (["ask", "a b", "--hops", "3"], ["--version", "x"], []):
        came = ran([room / "link", *words])
        expect(f"the program's words: {words}", (came.returncode, came.stdout), (9, f"program: {' '.join(words)}\n"))
    made = {str(it.relative_to(room / stem)) for it in (room / stem).rglob("*") if it.is_file()}
    wanted = {"share/symnet/symnet.html", "share/symnet/examples/ttl.sefl", "share/doc/symnet/README.md", "share/doc/symnet/docs/language.md", "share/man/man1/symnet.1.gz",
              "share/bash-completion/completions/symnet", "share/zsh/vendor-completions/_symnet", "share/fish/vendor_completions.d/symnet.fish"}
    expect("what is missing", wanted - made, set())
    expect("the manual", gzip.decompress((room / stem / "share/man/man1/symnet.1.gz").read_bytes()).startswith(b".TH SYMNET 1 "), True)
    check_package(files[1], made)
    sums = script.write_sums(FACTS, files, room)
    came = ran(["sha256sum", "--strict", "-c", sums.name], cwd=room)
    expect("the sums", (came.returncode, came.stdout), (0, "".join(f"{it.name}: OK\n" for it in files)))
    expect("what was proved", [it for it in (FACTS.commit, FACTS.kit, FACTS.gate) if it not in sums.read_text()], [])


def members(package: bytes) -> Dict[str, bytes]:
    """The members of an archive of ar."""
    found, at = {}, 8
    while at < len(package):
        name, size = package[at:at + 16].decode().strip(), int(package[at + 48:at + 58])
        found[name] = package[at + 60:at + 60 + size]
        at += 60 + size + size % 2
    return found


def check_package(file: Path, made: "set[str]") -> None:
    parts = members(file.read_bytes())
    expect("the parts of the package", list(parts), ["debian-binary", "control.tar.gz", "data.tar.gz"])
    fields = release_texts.control(FACTS, 7, release_texts.libc_of(STAND_IN))
    for line in (f"Version: {version()}", "Architecture: amd64", "Depends: libc6 (>= 2.34)", "Installed-Size: 7", "Maintainer: The makers <makers@example.org>"):
        expect(f"the control file has {line}", f"\n{line}\n" in fields, True)
    expect("an odd member", release_files.ar({"a": b"x"}, 0)[-2:], b"x\n")
    if shutil.which("dpkg-deb"):
        listed = ran(["dpkg-deb", "--contents", file])
        names = {line.split(" ./usr/")[1] for line in listed.stdout.splitlines() if line.startswith("-") and " ./usr/" in line}
        expect("dpkg-deb reads it", (listed.returncode, names == made), (0, True))
        expect("dpkg-deb reads the version", ran(["dpkg-deb", "--field", file, "Version"]).stdout, f"{version()}\n")


def check_wheel(room: Path) -> None:
    script = release()
    script.LIBRARY = room / "libsymnet.so"
    script.LIBRARY.write_text("the library")
    for inside, wanted in ({"symnet/libsymnet.so": "the library"}, ""), ({"symnet/libsymnet.so": "another"}, "the library is not in the wheel"), ({}, "the library is not in the wheel"):
        with zipfile.ZipFile(room / "wheel", "w") as files:
            for name, text in inside.items():
                files.writestr(name, text)
        came = ""
        try:
            script.check_wheel(room / "wheel")
        except script.Refused as reason:
            came = str(reason)
        expect(f"a wheel with {inside}", came, wanted)


def check_refusals(room: Path) -> None:
    top, log = room / "top", room / "log"
    for name in (*(f"tools/{it.name}" for it in [*(TOP / "tools").glob("*.py"), TOP / "tools/release"]), "python/pyproject.toml"):
        (top / name).parent.mkdir(parents=True, exist_ok=True)
        shutil.copy(TOP / name, top / name)
    source, program = top / "crates/low/src/lib.rt", top / "crates/symnet_cli/out/symnet_cli"
    (top / "crates.txt").write_text("low:\n")
    for it in (source, program):
        it.parent.mkdir(parents=True)
        it.write_text("")
    (top / ".gitignore").write_text("out/\n__pycache__/\n")
    (room / "bin").mkdir()
    (room / "bin/rt").write_text("#!/bin/sh\n[ $1 = version ] && echo kit || { echo; echo 3 passed, 1 failed; exit 1; }\n")
    (room / "bin/rt").chmod(0o755)
    path = f"{room}/bin:{Path(sys.executable).parent}:{os.environ['PATH']}"
    for words in (["init", "-q"], ["add", "-A"], ["-c", "user.name=a", "-c", "user.email=a@b", "commit", "-qm", "first"]):
        expect(f"git {words}", ran(["git", *words], cwd=top).returncode, 0)

    def refused(what: str, says: str, gate: Optional[str]) -> None:
        words = [] if gate is None else ["--gate", log]
        if gate is not None:
            log.write_text(gate)
        came = ran([top / "tools/release", *words, room / "made"], env={**os.environ, "PATH": path})
        expect(what, (came.returncode, came.stdout, came.stderr.splitlines()[-1:], (room / "made").exists()), (1, "", [f"release: there is no release: {says}"], False))

    refused("a gate that did not pass", "the gate has not passed; its last line is '3 passed, 1 failed'", "2 passed, 0 failed\n3 passed, 1 failed\n")
    refused("a gate that is run and does not pass", "the gate has not passed; its last line is ''", None)
    refused("a gate without its end", "the gate has not passed; its last line is '== low'", "3 passed, 0 failed\n== low\n")
    (top / "new").write_text("")
    changed = "files are changed since the last commit: commit them, and let the gate pass"
    refused("a file that is not committed", changed, "3 passed, 0 failed\n")
    (top / "new").unlink()
    source.write_text("// new\n")
    refused("a source that is not committed", changed, "3 passed, 0 failed\n")
    source.write_text("")
    later = time.time() + 60
    os.utime(source, (later, later))
    old = "the program is not built, or older than its sources: ./symnet --prove, or the gate"
    refused("a program that is older", old, "3 passed, 0 failed\n")
    os.utime(program, (later, later))
    refused("a log that is older", f"{log} is older than the sources: it tells of another tree", "3 passed, 0 failed\n")
    program.unlink()
    refused("no program", old, "3 passed, 0 failed\n")


def main() -> int:
    of = usage_forms.usage()
    with tempfile.TemporaryDirectory() as folder:
        room = Path(os.path.realpath(folder))
        check_manual(of, room)
        check_completions(of, room)
        check_archives(room)
        check_wheel(room)
        check_refusals(room)
    print(f"release_test: {len(failed)} failed" if failed else "release_test: all is as it should be")
    return 1 if failed else 0


if __name__ == "__main__":
    sys.exit(main())
