"""Unpacks compressed logs, as logrotate leaves them: files of gzip, bzip2, xz or zstd."""

from __future__ import annotations

import bz2
import gzip
import importlib
import lzma
import zlib
from typing import BinaryIO, Callable, Optional, cast

# Opens the unpacked content of a compressed file.
Opener = Callable[[BinaryIO], BinaryIO]

GZIP, BZIP2, XZ, ZSTD = b"\x1f\x8b", b"BZh", b"\xfd7zXZ\0", b"\x28\xb5\x2f\xfd"
LONGEST_MARK = 6
# The errors of reading a compressed file that was cut or changed; an OSError then has no number.
ERRORS = (EOFError, OSError, zlib.error, lzma.LZMAError)


def zstd_opener() -> Optional[Opener]:
    """Returns an Opener for a file of zstd, or None if this Python has no module for it."""
    try:
        module = importlib.import_module("compression.zstd")  # of Python 3.14
        return cast(Opener, module.ZstdFile)
    except ImportError:
        pass
    try:
        module = importlib.import_module("zstandard")
    except ImportError:
        return None
    return lambda file: cast(
        BinaryIO, module.ZstdDecompressor().stream_reader(file, read_across_frames=True)
    )


OPENERS: dict[bytes, tuple[str, Callable[[], Optional[Opener]]]] = {
    GZIP: ("gzip", lambda: lambda file: cast(BinaryIO, gzip.GzipFile(fileobj=file))),
    BZIP2: ("bzip2", lambda: lambda file: cast(BinaryIO, bz2.BZ2File(file))),
    XZ: ("xz", lambda: lambda file: cast(BinaryIO, lzma.LZMAFile(file))),
    ZSTD: ("zstd", lambda: zstd_opener()),
}


def name_of(first: bytes) -> str | None:
    """Returns the name of the program that packed a file with these first bytes, or None."""
    return next((name for mark, (name, _) in OPENERS.items() if first.startswith(mark)), None)


def opened(file: BinaryIO, name: str) -> BinaryIO | None:
    """Returns the content of a file that the program of this name packed, or None if this Python
    can't unpack it."""
    make = next(opener for one, opener in OPENERS.values() if one == name)()
    return make(file) if make else None
