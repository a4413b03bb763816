"""The text of a log's file: plain, or compressed by gzip, bzip2, xz, zip or zstd, which its first bytes tell."""
from __future__ import annotations

import bz2
import gzip
import io
import lzma
import zipfile
import zlib
from typing import Any, BinaryIO, Callable, Optional

from ..files import CHUNK, STANDARD, Source
from ..refusal import Refusal

MOST_BYTES = 1 << 30
TOO_MUCH = f"more than {MOST_BYTES >> 30} GiB of text; a run takes 1,000,000 requests at most: cut the log"
SPOILED = (OSError, EOFError, ValueError, zlib.error, lzma.LZMAError, zipfile.BadZipFile)


# What has a text: its `read` takes the most bytes.
Opened = Any


def in_zip(file: BinaryIO) -> Opened:
    """The one file in an archive."""
    archive = zipfile.ZipFile(file)
    names = archive.namelist()
    if len(names) != 1:
        raise Refusal(f"{len(names)} files are in this zip; wanted: one")
    return archive.open(names[0])


def by_zstd(file: BinaryIO) -> Opened:
    """Refusal where Debian's python3-zstandard is not there."""
    try:
        import zstandard
    except ImportError:
        raise Refusal("it is compressed by zstd: install python3-zstandard, or decompress it first (zstd -d)"
                      ) from None
    return zstandard.ZstdDecompressor().stream_reader(file)


# How a compressed file begins, with its name and what reads it.
COMPRESSED: dict[bytes, tuple[str, Callable[[BinaryIO], Opened]]] = {
    b"\x1f\x8b": ("gzip", lambda it: gzip.GzipFile(fileobj=it)),
    b"BZh": ("bzip2", bz2.BZ2File),
    b"\xfd7zXZ\0": ("xz", lzma.LZMAFile),
    b"PK\x03\x04": ("zip", in_zip),
    b"\x28\xb5\x2f\xfd": ("zstd", by_zstd),
}


def read_all(source: Source, name: str) -> bytes:
    """All bytes of a file, up to the limit."""
    try:
        return source.read(limit=MOST_BYTES)
    except Refusal as refusal:
        raise Refusal(f"{name}: {TOO_MUCH}") if refusal.line == "input length" else refusal from None


def way_of(given: bytes) -> Optional[str]:
    """By what a file is compressed."""
    return next((how for front, (how, _) in COMPRESSED.items() if given.startswith(front)), None)


def plain(given: bytes) -> bytes:
    """The text of a file. Refusal of one that is spoiled or too much."""
    opener = next((opens for front, (_, opens) in COMPRESSED.items() if given.startswith(front)), None)
    if opener is None:
        return given
    try:
        text: bytes = opener(io.BytesIO(given)).read(MOST_BYTES + 1)
    except SPOILED as fault:
        raise Refusal(f"it begins as {way_of(given)}, and cannot be decompressed: {fault}") from None
    if len(text) > MOST_BYTES:
        raise Refusal(TOO_MUCH)
    return text


def decoded(text: bytes) -> str:
    """The letters of a text: UTF-16 where it begins so, else UTF-8; for what is neither there is a sign."""
    if text.startswith((b"\xff\xfe", b"\xfe\xff")):
        return text.decode("utf-16", "replace")
    return text.removeprefix(b"\xef\xbb\xbf").decode("utf-8", "replace")


def text_of(name: str) -> tuple[str, Optional[str]]:
    """The letters of the file of a name, where - is the standard input; and by what it was compressed."""
    source = Source(None if name == STANDARD else name)
    given = read_all(source, name)
    try:
        return decoded(plain(given)), way_of(given)
    except Refusal as refusal:
        raise Refusal(f"{name}: {refusal.line}", refusal.status, refusal.below) from None
