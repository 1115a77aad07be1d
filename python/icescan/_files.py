"""Reading the files of a table."""
from __future__ import annotations

import errno
import os
import urllib.parse
from typing import Callable, Union

Read = Callable[[str], bytes]


def absent(path: str, why: str) -> FileNotFoundError:
    """The error that a path of a table names no file here."""
    return FileNotFoundError(errno.ENOENT, why, path)


class Folder:
    """Reads the files of a table below a folder, which stands for the front `prefix` of the table's paths: the path
    PREFIX/a is the file FOLDER/a. A path that does not begin with the prefix, or has a segment `.` or `..` after it,
    counts as absent and is never opened."""

    def __init__(self, folder: Union[str, "os.PathLike[str]"], prefix: str) -> None:
        self.folder, self.prefix = os.fspath(folder), prefix

    def __call__(self, path: str) -> bytes:
        """The bytes of the file at a path of the table."""
        if not path.startswith(self.prefix):
            raise absent(path, f"does not begin with the prefix {self.prefix!r}")
        rest = path[len(self.prefix):]
        rest = rest[1:] if rest.startswith("/") else rest
        if "\0" in rest or not {".", ".."}.isdisjoint(rest.split("/")):
            raise absent(path, "leads out of the folder")
        with open(f"{self.folder}/{rest}", "rb") as file:
            return file.read()


def read_local(path: str) -> bytes:
    """The bytes of the file at a path of this system, or at a URL `file:..`."""
    url = urllib.parse.urlsplit(path)
    if url.scheme not in ("", "file"):
        raise absent(path, "is no path of this system: give folder and prefix, or read")
    with open(urllib.parse.unquote(url.path) if url.scheme else path, "rb") as file:
        return file.read()
