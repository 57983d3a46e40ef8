"""Makes the wheel of the package `slew`: slew.py and the shared library beside it. It needs Python's standard library alone, so that `pip install` asks no network.

    python3 bindings/python/backend.py FOLDER      writes slew-VERSION-py3-none-linux_x86_64.whl there and prints its name

pip calls `build_wheel` (PEP 517). The library is target/lib/libslew.so, which `make shared` writes, or lib/libslew.so of a distribution, or the one that SLEW_LIBRARY names.
"""

from __future__ import annotations

import base64
import hashlib
import os
import re
import sys
import zipfile
from typing import Any, Dict, List, Optional, Tuple

HERE = os.path.dirname(os.path.abspath(__file__))
TOP = os.path.dirname(os.path.dirname(HERE))
TAG = "py3-none-linux_x86_64"
DAY = (2020, 1, 1, 0, 0, 0)  # of every file in the wheel, so that the same files make the same wheel


def version() -> str:
    """That of the interface, in include/slew.h."""
    with open(os.path.join(TOP, "include", "slew.h"), encoding="utf-8") as header:
        found = re.search(r'^#define SLEW_VERSION "(.*)"', header.read(), re.MULTILINE)
    if not found:
        raise SystemExit("include/slew.h has no SLEW_VERSION")
    return found.group(1)


def library() -> str:
    named = os.environ.get("SLEW_LIBRARY")
    for path in [named] if named else [os.path.join(TOP, part, "libslew.so") for part in ("target/lib", "lib")]:
        if os.path.exists(path):
            return path
    raise SystemExit("There is no libslew.so to put into the package: run `make shared` at the top of the repository, or name the library in SLEW_LIBRARY.")


def contents() -> List[Tuple[str, bytes]]:
    """The package: its module, its library, and that it has types."""
    files = [("slew/__init__.py", os.path.join(HERE, "slew.py")), ("slew/libslew.so", library())]
    read = []
    for name, path in files:
        with open(path, "rb") as file:
            read.append((name, file.read()))
    return read + [("slew/py.typed", b"")]


def metadata() -> List[Tuple[str, bytes]]:
    """What pip reads of the wheel."""
    folder = f"slew-{version()}.dist-info"
    about = f"Metadata-Version: 2.1\nName: slew\nVersion: {version()}\nSummary: Slew planner of air-bearing attitude tables\nRequires-Python: >=3.8\n"
    wheel = f"Wheel-Version: 1.0\nGenerator: slew\nRoot-Is-Purelib: false\nTag: {TAG}\n"
    named = [(f"{folder}/METADATA", about.encode()), (f"{folder}/WHEEL", wheel.encode())]
    for name in ("LICENSE", "NOTICE"):
        with open(os.path.join(TOP, name), "rb") as file:
            named.append((f"{folder}/{name}", file.read()))
    return named


def record(files: List[Tuple[str, bytes]]) -> Tuple[str, bytes]:
    """The list of all files, with what each hashes to."""
    name = f"slew-{version()}.dist-info/RECORD"
    lines = [f"{path},sha256={base64.urlsafe_b64encode(hashlib.sha256(data).digest()).decode().rstrip('=')},{len(data)}" for path, data in files]
    return name, "\n".join(lines + [f"{name},,", ""]).encode()


def build_wheel(wheel_directory: str, config_settings: Optional[Dict[str, Any]] = None, metadata_directory: Optional[str] = None) -> str:
    files = contents() + metadata()
    name = f"slew-{version()}-{TAG}.whl"
    with zipfile.ZipFile(os.path.join(wheel_directory, name), "w", zipfile.ZIP_DEFLATED) as wheel:
        for path, data in files + [record(files)]:
            entry = zipfile.ZipInfo(path, DAY)
            entry.external_attr, entry.compress_type = 0o644 << 16, zipfile.ZIP_DEFLATED
            wheel.writestr(entry, data)
    return name


if __name__ == "__main__":
    if len(sys.argv) != 2:
        sys.exit(__doc__)
    os.makedirs(sys.argv[1], exist_ok=True)
    print(build_wheel(sys.argv[1]))
