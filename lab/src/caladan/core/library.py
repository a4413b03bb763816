"""The C library: which file it is, opened once."""
from __future__ import annotations

import ctypes
import functools
import os
import sysconfig
from typing import Union

from .. import __version__

VERSION = int(__version__)
NAME = "libcaladan_c.so"
Library = ctypes.CDLL
GivenLibrary = Union[Library, str, "os.PathLike[str]", None]


class NoLibrary(OSError):
    """There is no C library, or it is of another version."""


def places() -> list[str]:
    """Where the library may be: in the prefix that this package is in, as PREFIX/lib/python3/dist-packages or
    PREFIX/share/caladan/python has it; of a checkout in out/lib, where `make install_library PREFIX=out` puts it."""
    folders = [os.path.dirname(os.path.dirname(os.path.realpath(__file__)))]
    for _ in range(4):
        folders.append(os.path.dirname(folders[-1]))
    triplet = sysconfig.get_config_var("MULTIARCH") or "."
    _, _, _, checkout, prefix = folders
    return [f"{prefix}/lib/{NAME}", f"{prefix}/lib/{triplet}/{NAME}", f"{checkout}/out/lib/{NAME}"]


def found() -> str:
    """The file: one that is installed beside this package, else the one that CALADAN_LIBRARY names, else the one of
    this version that the system finds."""
    beside = next((it for it in places() if os.path.isfile(it)), "")
    return beside or os.environ.get("CALADAN_LIBRARY", "") or f"{NAME}.{VERSION}"


def checked(library: Library, name: str) -> Library:
    """The library, of this version."""
    try:
        version_of(library)
    except AttributeError:
        raise NoLibrary(f"{name} is no {NAME}") from None
    if version_of(library) != VERSION:
        raise NoLibrary(f"{name} is of version {version_of(library)}, and this package of {VERSION}: install both of "
                        "one version, or give the file of another as `library`")
    return library


@functools.lru_cache(maxsize=None)
def opened(name: str) -> Library:
    """A library by its file, or by the name that the system has for it."""
    try:
        library = ctypes.CDLL(name)
    except OSError as fault:
        if "/" not in name:
            raise NoLibrary(f"there is no {name}: install it (the package libcaladan-dev, or make install_library), or "
                            "name its file in CALADAN_LIBRARY") from None
        names = "CALADAN_LIBRARY" if name == os.environ.get("CALADAN_LIBRARY") else "`library`"
        raise NoLibrary(f"{fault}; {names} names another") from None
    return checked(library, name)


def library_of(given: GivenLibrary = None) -> Library:
    """The library: the one that is given, open or by its file, else the one that is found."""
    if isinstance(given, ctypes.CDLL):
        return checked(given, given._name)
    name = found() if given is None else os.fspath(given)
    return opened(os.path.abspath(name) if os.path.isfile(name) else name)


def version_of(library: Library) -> int:
    function = library.caladan_version
    function.restype = ctypes.c_uint32
    return int(function())


def version(library: GivenLibrary = None) -> int:
    """The version of the library, as CALADAN_VERSION has it; NoLibrary where there is none."""
    return version_of(library_of(library))
