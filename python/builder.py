"""Makes the wheel of the package, with the library that tools/build_library.py built, if it is there (PEP 517): without it the package runs the built program, and the
wheel is of any machine. It needs nothing besides Python."""

import base64
import hashlib
import sysconfig
import tomllib
import zipfile
from pathlib import Path
from typing import Any, Dict, List, Optional

HERE = Path(__file__).resolve().parent
LIBRARY = HERE.parent / "crates/symnet_c/out/libsymnet.so"
# What a notebook shows.
PAGE = HERE.parent / "viewer/index.html"


def _project() -> Dict[str, Any]:
    project: Dict[str, Any] = tomllib.loads((HERE / "pyproject.toml").read_text())["project"]
    return project


def _tag() -> str:
    """The tag of wheels for any Python 3: on this machine, where the library is inside, which is of this machine."""
    return f"py3-none-{sysconfig.get_platform().replace('-', '_').replace('.', '_') if LIBRARY.is_file() else 'any'}"


def _metadata() -> Dict[str, bytes]:
    project = _project()
    told = f"Metadata-Version: 2.1\nName: {project['name']}\nVersion: {project['version']}\nSummary: {project['description']}\nRequires-Python: {project['requires-python']}\n"
    folder = f"{project['name']}-{project['version']}.dist-info"
    wheel = f"Wheel-Version: 1.0\nGenerator: builder\nRoot-Is-Purelib: {'false' if LIBRARY.is_file() else 'true'}\nTag: {_tag()}\n"
    return {f"{folder}/METADATA": told.encode(), f"{folder}/WHEEL": wheel.encode()}


def _files() -> Dict[str, bytes]:
    package = HERE / "symnet"
    found = {str(it.relative_to(HERE)): it.read_bytes() for it in sorted([*package.glob("*.py"), *package.glob("importing/*.py"), package / "py.typed"])}
    library = {"symnet/libsymnet.so": LIBRARY.read_bytes()} if LIBRARY.is_file() else {}
    return {**found, "symnet/page.html": PAGE.read_bytes(), **library}


def build_wheel(wheel_directory: str, config_settings: Optional[Dict[str, Any]] = None, metadata_directory: Optional[str] = None) -> str:
    project = _project()
    metadata = _metadata()
    files = {**_files(), **metadata}
    record = f"{project['name']}-{project['version']}.dist-info/RECORD"
    lines = [f"{name},sha256={base64.urlsafe_b64encode(hashlib.sha256(text).digest()).rstrip(b'=').decode()},{len(text)}" for name, text in files.items()]
    files[record] = "\n".join([*lines, f"{record},,", ""]).encode()
    name = f"{project['name']}-{project['version']}-{_tag()}.whl"
    with zipfile.ZipFile(Path(wheel_directory, name), "w", zipfile.ZIP_DEFLATED) as wheel:
        for file, text in files.items():
            wheel.writestr(file, text)
    return name


def get_requires_for_build_wheel(config_settings: Optional[Dict[str, Any]] = None) -> List[str]:
    return []
