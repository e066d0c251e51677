"""Builds the wheel of bootmem_tools for pip (PEP 517). It uses only the standard library, so pip
has to download nothing."""

from __future__ import annotations

import base64
import hashlib
import os
import re
import tarfile
import zipfile
from typing import Any

HERE = os.path.dirname(os.path.abspath(__file__))
PACKAGE = "bootmem_tools"
Settings = dict[str, Any]


def project() -> tuple[str, str, str, dict[str, str]]:
    """Returns version, lowest version of Python, description and commands of pyproject.toml."""
    with open(os.path.join(HERE, "pyproject.toml"), encoding="utf-8") as file:
        text = file.read()
    version, python, what = (re.search(rf'^{key} = "(.*)"$', text, re.MULTILINE)
                             for key in ("version", "requires-python", "description"))
    if not version or not python or not what:
        raise ValueError("pyproject.toml lacks version, requires-python or description")
    commands = dict(re.findall(r'^([\w-]+) = "([\w.]+:\w+)"$', text, re.MULTILINE))
    return version.group(1), python.group(1), what.group(1), commands


def files() -> dict[str, bytes]:
    """Returns the package's files by their names in the wheel."""
    found = {}
    for name in sorted(os.listdir(os.path.join(HERE, PACKAGE))):
        path = os.path.join(HERE, PACKAGE, name)
        if os.path.isfile(path):
            with open(path, "rb") as file:
                found[f"{PACKAGE}/{name}"] = file.read()
    return found


def metadata(version: str, python: str, what: str) -> bytes:
    """Returns the file METADATA."""
    return (f"Metadata-Version: 2.1\nName: bootmem-tools\nVersion: {version}\nSummary: {what}\n"
            f"Requires-Python: {python}\n").encode()


def build_wheel(wheel_directory: str, config_settings: Settings | None = None,
                metadata_directory: str | None = None) -> str:
    """Writes the wheel into the folder and returns its name (a hook of PEP 517)."""
    version, python, what, commands = project()
    info = f"{PACKAGE}-{version}.dist-info"
    held = files()
    held[f"{info}/METADATA"] = metadata(version, python, what)
    held[f"{info}/WHEEL"] = (b"Wheel-Version: 1.0\nGenerator: bootmem\nRoot-Is-Purelib: true\n"
                             b"Tag: py3-none-any\n")
    scripts = "".join(f"{name} = {place}\n" for name, place in commands.items())
    held[f"{info}/entry_points.txt"] = f"[console_scripts]\n{scripts}".encode()
    record = "".join(f"{name},sha256={digest(data)},{len(data)}\n" for name, data in held.items())
    held[f"{info}/RECORD"] = f"{record}{info}/RECORD,,\n".encode()
    name = f"{PACKAGE}-{version}-py3-none-any.whl"
    with zipfile.ZipFile(os.path.join(wheel_directory, name), "w", zipfile.ZIP_DEFLATED) as wheel:
        for place, data in held.items():
            wheel.writestr(place, data)
    return name


def digest(data: bytes) -> str:
    """Returns the checksum of a file in the form that RECORD has."""
    return base64.urlsafe_b64encode(hashlib.sha256(data).digest()).rstrip(b"=").decode()


def build_sdist(sdist_directory: str, config_settings: Settings | None = None) -> str:
    """Writes the archive of the sources into the folder and returns its name (a hook of PEP
    517)."""
    version = project()[0]
    top = f"{PACKAGE}-{version}"
    with tarfile.open(os.path.join(sdist_directory, f"{top}.tar.gz"), "w:gz") as archive:
        for name in ("pyproject.toml", "build_backend.py", *files()):
            archive.add(os.path.join(HERE, name), f"{top}/{name}")
    return f"{top}.tar.gz"
