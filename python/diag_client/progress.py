"""What a terminal shows while an answer is awaited: what is still at work, and for how long."""

from __future__ import annotations

import argparse
import os
import sys
import threading
import time
from collections.abc import Mapping
from typing import Any, TextIO

from .service import Service

# So many seconds pass before anything is shown, and between two times that it is shown.
PAUSE = 1.0


class Progress:
    """Shows on standard error, if that is a terminal, what has been at work for a second or more, until the end of `with`."""

    def __init__(self, what: str, stream: TextIO | None = None) -> None:
        self._what = what
        self._stream = stream or sys.stderr
        self._begun = time.monotonic()
        self._said = self._begun
        self._is_shown = False
        self._lock = threading.Lock()
        self._ends = threading.Event()
        self._thread: threading.Thread | None = None

    def __enter__(self) -> Progress:
        if self._stream.isatty():
            self._thread = threading.Thread(target=self._show_on, daemon=True)
            self._thread.start()
        return self

    def __exit__(self, *_: object) -> None:
        self._ends.set()
        self.clear()

    def clear(self) -> None:
        """Makes room for what is printed now. The line comes again after a second in which nothing is."""
        with self._lock:
            self._said = time.monotonic()
            if self._is_shown:
                self._is_shown = False
                self._stream.write("\r\x1b[K")
                self._stream.flush()

    def _show_on(self) -> None:
        while not self._ends.wait(PAUSE / 4):
            with self._lock:
                now = time.monotonic()
                if now - self._said < PAUSE or self._ends.is_set():
                    continue
                self._said = now
                self._is_shown = True
                self._stream.write(f"\r\x1b[K{self._what}: {now - self._begun:.0f} s")
                self._stream.flush()


def compiling(file: str | os.PathLike[str], options: Mapping[str, Any]) -> Progress:
    """The progress of a service while it is made."""
    work = "compiling" if options.get("narrow") is False else "searching a forest and compiling"
    is_read = options.get("health") is not None or options.get("engine") == "search"
    return Progress(f"{'reading' if is_read else work} {os.path.basename(os.fspath(file))}")


def options_in(words: argparse.Namespace) -> dict[str, Any]:
    """The options of a service that the words give."""
    if os.fspath(words.file).endswith(".nnf") and "health" not in words:
        raise ValueError(f"{words.file}: a graph (.nnf) is asked in the terminal, by `shell FILE --health N`")
    return {name: value for name, value in vars(words).items() if name in Service.__init__.__kwdefaults__ and value is not None}


def serve(file: str | os.PathLike[str], **options: Any) -> Service:
    """A service. While it is made, a terminal shows for how long the device has been compiled."""
    with compiling(file, options):
        return Service(file, **options)
