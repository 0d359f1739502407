"""Makes a wheel of the module, with the C library inside: what `pip wheel` calls (PEP 517).

A wheel has a package `mp4norm`: the module as `__init__.py`, `py.typed`, by which tools that check types
know that it has them, and `libmp4norm.so.0`. It has the version that the library answers, or that is
given for one of another machine, and its tag says what that asks of a system: Linux on x86-64 with
glibc 2.14 or later, or on aarch64 with 2.17. The same module and library give the same bytes.
"""
from __future__ import annotations

import base64
import ctypes
import hashlib
import os
import zipfile
from typing import Dict, List, Mapping, Optional

HERE = os.path.dirname(os.path.realpath(__file__))
LIBRARY = "libmp4norm.so.0"
PUBLISHED = os.path.join(HERE, "..", "dist", "x86_64-linux", LIBRARY)
# By the number of a machine in ELF: names of glibc of this version or before are all that its library wants.
TAGS = {62: "py3-none-manylinux_2_14_x86_64", 183: "py3-none-manylinux_2_17_aarch64"}
MACHINE = slice(18, 20)
METADATA = """Metadata-Version: 2.1
Name: mp4norm
Version: {}
Summary: What MP4 files say: normal forms, differences, sums, samples and boxes
Requires-Python: >=3.8
Classifier: Operating System :: POSIX :: Linux
Classifier: Typing :: Typed
"""
WHEEL = """Wheel-Version: 1.0
Generator: mp4norm
Root-Is-Purelib: false
Tag: {}
"""
# The time of every file: zip files know none before 1980.
TIME = (1980, 1, 1, 0, 0, 0)


class UnsupportedOperation(Exception):
    """What a builder of packages asks for that is not made here."""


def _read(*names: str) -> bytes:
    with open(os.path.join(*names), "rb") as file:
        return file.read()


def _version(library: str) -> str:
    """The version that a library answers."""
    numbers = (ctypes.c_uint32 * 3)()
    try:
        ctypes.CDLL(os.path.abspath(library)).mp4norm_version(numbers)
    except (AttributeError, OSError) as error:
        raise SystemExit(f"wheels: no library that answers its version: {error}") from None
    return ".".join(map(str, numbers))


def _line(name: str, content: bytes) -> str:
    """The line of a file in the list of all."""
    digest = base64.urlsafe_b64encode(hashlib.sha256(content).digest()).rstrip(b"=").decode()
    return f"{name},sha256={digest},{len(content)}\n"


def get_requires_for_build_wheel(settings: Optional[Mapping[str, str]] = None) -> List[str]:
    """Nothing is wanted but Python."""
    return []


def build_wheel(folder: str, settings: Optional[Mapping[str, str]] = None,
                metadata: Optional[str] = None) -> str:
    """Makes the wheel in a folder; its name."""
    settings = settings or {}
    library = settings.get("library", PUBLISHED)
    version = settings.get("version") or _version(library)
    tag = TAGS.get(int.from_bytes(_read(library)[MACHINE], "little"))
    if tag is None:
        raise SystemExit(f"wheels: {library} is for a machine that no wheel is made for")
    about = f"mp4norm-{version}.dist-info"
    files: Dict[str, bytes] = {
        "mp4norm/__init__.py": _read(HERE, "mp4norm.py"),
        "mp4norm/py.typed": b"",
        f"mp4norm/{LIBRARY}": _read(library),
        f"{about}/METADATA": METADATA.format(version).encode(),
        f"{about}/WHEEL": WHEEL.format(tag).encode(),
    }
    listed = "".join(_line(name, content) for name, content in files.items())
    files[f"{about}/RECORD"] = f"{listed}{about}/RECORD,,\n".encode()
    name = f"mp4norm-{version}-{tag}.whl"
    with zipfile.ZipFile(os.path.join(folder, name), "w", zipfile.ZIP_DEFLATED) as wheel:
        for path, content in files.items():
            entry = zipfile.ZipInfo(path, TIME)
            entry.compress_type, entry.external_attr = zipfile.ZIP_DEFLATED, 0o100644 << 16
            wheel.writestr(entry, content)
    return name


def build_sdist(folder: str, settings: Optional[Mapping[str, str]] = None) -> str:
    """Sources alone would want the toolchain."""
    raise UnsupportedOperation("a wheel is made from a clone of the repository")
