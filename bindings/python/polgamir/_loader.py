"""Finds and loads the shared library, once, and looks whether it is of this package's version:
patches of one minor version fit each other, as the header promises.

The first of these that there is:

1. the file that the variable POLGAMIR_LIBRARY names, or `libpolgamir.so` in the folder that
   POLGAMIR_LIB_DIR names;
2. `libpolgamir.so` beside this file: a wheel brings it;
3. `target/lib/libpolgamir.so` of the repository that this package stands in, which `tools/library`
   proves and writes;
4. an installed library, by the loader of the system.
"""

from __future__ import annotations

import ctypes
import functools
import os
from pathlib import Path

from ._structs import CALLS
from ._version import __version__

FILE_VARIABLE = "POLGAMIR_LIBRARY"
FOLDER_VARIABLE = "POLGAMIR_LIB_DIR"


class LibraryError(OSError):
    """The shared library is missing or of another version; its text says what to do."""


def soname() -> str:
    """The name under which the loader knows the library of this version: while the major number is
    0, each minor number has its own."""
    major, minor, _ = __version__.split(".")
    return f"libpolgamir.so.{major}.{minor}" if major == "0" else f"libpolgamir.so.{major}"


def library_file() -> str:
    """The shared library to load: a path, or a name for the loader of the system."""
    if os.environ.get(FILE_VARIABLE):
        return os.environ[FILE_VARIABLE]
    if os.environ.get(FOLDER_VARIABLE):
        return str(Path(os.environ[FOLDER_VARIABLE]) / "libpolgamir.so")
    here = Path(__file__).resolve()
    repository = here.parents[3] if len(here.parents) > 3 else here.parent
    for file in (here.with_name("libpolgamir.so"), repository / "target" / "lib" / "libpolgamir.so"):
        if file.is_file():
            return str(file)
    return soname()


def _number(version: str) -> int:
    major, minor, patch = (int(part) for part in version.split("."))
    return 1_000_000 * major + 1_000 * minor + patch


def _text(number: int) -> str:
    return f"{number // 1_000_000}.{number // 1_000 % 1_000}.{number % 1_000}"


@functools.lru_cache(maxsize=None)
def library() -> ctypes.CDLL:
    """The shared library, of this package's version, with its calls."""
    file = library_file()
    advice = (
        f"install polgamir {__version__}, name its file by {FILE_VARIABLE}, "
        "or run `tools/library` at the root of the repository"
    )
    try:
        loaded = ctypes.CDLL(file)
    except OSError as error:
        raise LibraryError(f"the proved library cannot be loaded: {error}; {advice}") from None
    try:
        said = loaded.polgamir_version
    except AttributeError:
        raise LibraryError(f"{file} is no polgamir library, for it does not say its version; {advice}") from None
    said.restype, said.argtypes = CALLS["polgamir_version"]
    if said() // 1_000 != _number(__version__) // 1_000:
        found = _text(said())
        raise LibraryError(f"the library {file} has version {found}, and this package is for {__version__}; {advice}")
    for name, (result, arguments) in CALLS.items():
        try:
            call = getattr(loaded, name)
        except AttributeError:
            raise LibraryError(f"the library {file} has no {name}; {advice}") from None
        call.restype, call.argtypes = result, arguments
    return loaded


def version() -> int:
    """The version of the loaded library: 1,000,000 x major + 1,000 x minor + patch.

    Raises a `LibraryError`.
    """
    return library().polgamir_version()
