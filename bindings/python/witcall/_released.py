"""The shared library of a checkout: unpacked from its release, and compared with its checksum.

It imports no other part of the package, so setup.py runs it too.
"""

from __future__ import annotations

import contextlib
import gzip
import hashlib
import os
import pathlib
import platform
import sys
import tempfile
import zlib
from typing import Iterator, Optional

NAME = "libwitcall.so"

_PACKAGE = pathlib.Path(__file__).resolve().parent
_CHECKOUT = _PACKAGE.parents[2]
_RELEASE = _CHECKOUT / "release"
# Where the unpacked library is kept, for the next time.
KEPT = _PACKAGE.parent / "build" / NAME


def is_there() -> bool:
    """Whether this is the package of a checkout whose release has the library."""
    is_of_checkout = _CHECKOUT / "bindings" / "python" / "witcall" == _PACKAGE
    return is_of_checkout and (_RELEASE / f"{NAME}.gz").exists()


def is_for_this_machine() -> bool:
    """Whether the release's library is for machines such as this one."""
    return sys.platform == "linux" and platform.machine() == "x86_64" and sys.maxsize > 2**32


def _checksum() -> str:
    """The checksum that the library has to have."""
    sums = _RELEASE / "SHA256SUMS"
    lines = (line.split() for line in sums.read_text(encoding="utf-8").splitlines())
    found = [words[0] for words in lines if words[1:] == [NAME]]
    if not found:
        raise ImportError(f"{sums} has no line for {NAME}")
    return found[0]


def library() -> bytes:
    """The library that is_there.

    Raises:
        ImportError: if it can't be unpacked, or has another checksum
    """
    packed = _RELEASE / f"{NAME}.gz"
    try:
        found = gzip.decompress(packed.read_bytes())
    except (OSError, EOFError, zlib.error) as error:
        raise ImportError(f"{packed} can't be unpacked: {error}") from error
    if hashlib.sha256(found).hexdigest() != _checksum():
        raise ImportError(f"{packed} isn't what {_RELEASE / 'SHA256SUMS'} says")
    return found


def _is_kept() -> bool:
    """Whether the library of this release is kept."""
    try:
        return hashlib.sha256(KEPT.read_bytes()).hexdigest() == _checksum()
    except OSError:
        return False


def _keeps(found: bytes) -> bool:
    """Keeps the library, all of it at once, if the checkout can be written."""
    try:
        KEPT.parent.mkdir(exist_ok=True)
        number, name = tempfile.mkstemp(prefix=f".{NAME}-", dir=KEPT.parent)
    except OSError:
        return False
    try:
        with os.fdopen(number, "wb") as file:
            file.write(found)
        os.chmod(name, 0o644)
        os.replace(name, KEPT)
    except OSError:
        os.unlink(name)
        return False
    return True


@contextlib.contextmanager
def unpacked() -> Iterator[str]:
    """The path of the library in a `with` block: that of the kept file, or of a temporary one."""
    found: Optional[bytes] = None if _is_kept() else library()
    if found is None or _keeps(found):
        yield str(KEPT)
        return
    with tempfile.NamedTemporaryFile(prefix="witcall-", suffix=".so") as file:
        file.write(found)
        file.flush()
        yield file.name
