"""A file that is written whole or not at all, and the standard streams."""

from __future__ import annotations

import contextlib
import os
import pathlib
import sys


def write_whole(path: pathlib.Path, data: bytes, mode: int = 0o666) -> None:
    """Writes a file beside its place, and then puts it there, with this mode. What was there before stays until all is written."""
    if path.exists() and not path.is_file():
        # A pipe or a device, such as /dev/stdout, has no place to be put at.
        path.write_bytes(data)
        return
    # `resolve` has an error of its own for links that lead to each other.
    place = pathlib.Path(os.path.realpath(path))
    beside = place.with_name(f".{place.name}.{os.getpid()}")
    try:
        with open(beside, "wb", opener=lambda name, flags: os.open(name, flags, mode)) as file:
            file.write(data)
        os.replace(beside, place)
    except OSError as error:
        # It is said of the file that was asked for.
        error.filename, error.filename2 = str(path), None
        raise
    finally:
        with contextlib.suppress(OSError):
            beside.unlink()


def open_streams() -> None:
    """Opens the standard streams that were closed: nothing comes in, and what goes out is gone."""
    for name, mode in (("stdin", "r"), ("stdout", "w"), ("stderr", "w")):
        if getattr(sys, name) is None:
            setattr(sys, name, open(os.devnull, mode, encoding="utf-8"))


def drop_unwritten() -> None:
    """Drops what standard output and error do not take, since nobody reads it or the disk is full. At its end Python would try it again."""
    for stream in (sys.stdout, sys.stderr):
        try:
            stream.flush()
        except OSError:
            os.dup2(os.open(os.devnull, os.O_WRONLY), stream.fileno())
