"""The archives of a release: what stands in the folder of the program, as a tar file and as a Debian package. The same files give the same bytes."""

import gzip
import io
import tarfile
from pathlib import Path
from typing import Dict, Iterator, List, Tuple

# A file of a release: its bytes, and its rights.
File = Tuple[bytes, int]
Tree = Dict[str, File]
PROGRAM, TEXT = 0o755, 0o644


def listed(files: List[str]) -> Iterator[str]:
    """The folders of some files and the files, each folder before what stands in it."""
    folders = {str(it) for name in files for it in Path(name).parents if str(it) != "."}
    return iter(sorted({*folders, *files}))


def tar(tree: Tree, time: int, prefix: str = "") -> bytes:
    """A compressed tar file of the tree, below a prefix."""
    made = io.BytesIO()
    with tarfile.open(fileobj=made, mode="w", format=tarfile.GNU_FORMAT) as archive:
        for name in listed(list(tree)):
            text, rights = tree.get(name, (b"", PROGRAM))
            member = tarfile.TarInfo(f"{prefix}{name}")
            member.type, member.size, member.mode, member.mtime = tarfile.REGTYPE if name in tree else tarfile.DIRTYPE, len(text), rights, time
            member.uname = member.gname = "root"
            archive.addfile(member, io.BytesIO(text))
    return gzip.compress(made.getvalue(), mtime=time)


def ar(members: Dict[str, bytes], time: int) -> bytes:
    """An archive of `ar` with these members, as a Debian package is one."""
    made = [b"!<arch>\n"]
    for name, text in members.items():
        made += [f"{name:<16}{time:<12}{0:<6}{0:<6}{'100644':<8}{len(text):<10}`\n".encode(), text, b"\n" * (len(text) % 2)]
    return b"".join(made)


def kilobytes(tree: Tree) -> int:
    """The room that the tree takes, as the control file tells it."""
    return sum(len(text) + 1023 >> 10 for text, _ in tree.values())


def deb(tree: Tree, control: str, time: int) -> bytes:
    """A Debian package of the tree, which is put below /usr."""
    data = tar({f"usr/{name}": file for name, file in tree.items()}, time, "./")
    return ar({"debian-binary": b"2.0\n", "control.tar.gz": tar({"control": (control.encode(), TEXT)}, time, "./"), "data.tar.gz": data}, time)
