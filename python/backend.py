"""Makes the wheel of the package `lgm`, with the shared object in it, by Python alone.

`./package` calls it with what it builds. In a clone where `examples/build-c` has built the library, `pip install ./python`
calls it as PEP 517 says; pyproject.toml names it there.
"""

from __future__ import annotations

import base64
import hashlib
import os
import re
import stat
import time
import zipfile
from pathlib import Path
from typing import Any, Dict, Optional

HERE = Path(__file__).resolve().parent
TOP = HERE.parent
# The oldest systems that take the wheel: with glibc 2.17, also by the older name for that, or with musl. What the shared object
# asks of the C library, six functions of the heap and of memory, has been there since then.
SYSTEMS = ("manylinux2014", "manylinux_2_17", "musllinux_1_2")
FIRST_TIME = 315_532_800  # of 1980: a zip file has no earlier one


def wheel_text(machine: str) -> str:
    """What the wheel says of itself as a wheel, for a machine by the kernel's name for it."""
    tags = "".join(f"Tag: py3-none-{system}_{machine}\n" for system in SYSTEMS)
    return f"Wheel-Version: 1.0\nGenerator: lgm\nRoot-Is-Purelib: false\n{tags}"


def metadata(version: str) -> str:
    """What the wheel says of itself: what pyproject.toml does, and the version."""
    project = dict(re.findall(r'(?m)^([\w-]+) = "(.*)"$', (HERE / "pyproject.toml").read_text()))
    return (f"Metadata-Version: 2.1\nName: {project['name']}\nVersion: {version}\nSummary: {project['description']}\n"
            f"Requires-Python: {project['requires-python']}\n")


def contents(version: str, shared_object: Path, machine: str) -> Dict[str, bytes]:
    """The files of the wheel by their names, but for the list of them."""
    folder = HERE / "lgm"
    files = {f"lgm/{file.name}": file.read_bytes() for file in (*folder.glob("*.py"), folder / "py.typed", shared_object)}
    files[f"lgm-{version}.dist-info/METADATA"] = metadata(version).encode()
    files[f"lgm-{version}.dist-info/WHEEL"] = wheel_text(machine).encode()
    return files


def record(files: Dict[str, bytes], own: str) -> bytes:
    """The list of the files, each with its SHA-256 and its length, but for the list itself."""
    digests = {name: base64.urlsafe_b64encode(hashlib.sha256(content).digest()).rstrip(b"=") for name, content in files.items()}
    lines = [f"{name},sha256={digests[name].decode()},{len(content)}\n" for name, content in files.items()]
    return "".join([*lines, f"{own},,\n"]).encode()


def write_wheel(folder: Path, version: str, shared_object: Path, seconds: int, machine: str = "x86_64") -> str:
    """Writes the wheel for a machine to a folder, with a time since 1970 for its files. Its name."""
    files = dict(sorted(contents(version, shared_object, machine).items()))
    own = f"lgm-{version}.dist-info/RECORD"
    files[own] = record(files, own)
    name = f"lgm-{version}-py3-none-{'.'.join(f'{system}_{machine}' for system in SYSTEMS)}.whl"
    with zipfile.ZipFile(folder / name, "w") as archive:
        for file, content in files.items():
            info = zipfile.ZipInfo(file, time.gmtime(max(seconds, FIRST_TIME))[:6])
            info.create_system, info.external_attr = 3, (stat.S_IFREG | 0o644) << 16
            archive.writestr(info, content, zipfile.ZIP_DEFLATED, 9)
    return name


def build_wheel(wheel_directory: str, config_settings: Any = None, metadata_directory: Optional[str] = None) -> str:
    """PEP 517's call: the wheel with the library that `examples/build-c` built."""
    version = (TOP / "VERSION").read_text().strip()
    shared_object = (TOP / "examples" / "out" / "liblgm.so").resolve()
    if not shared_object.exists():
        raise SystemExit("examples/build-c builds the library first")
    return write_wheel(Path(wheel_directory), version, shared_object, int(os.environ.get("SOURCE_DATE_EPOCH", FIRST_TIME)))
