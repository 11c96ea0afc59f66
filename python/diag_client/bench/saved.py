"""The boards of a bench as files, so that none is lost with the program: one for each board, in the user's state folder.

A folder belongs to one running bench of one device, which locks it. It also keeps the port and the tokens of the addresses, so that a
page that is open goes on once the bench is started again.
"""

from __future__ import annotations

import contextlib
import fcntl
import hashlib
import itertools
import json
import os
import pathlib
import re
from typing import IO

from ..files import write_whole

BOARD_ID = re.compile("[-_0-9A-Za-z]{8,40}")
# So many boards of earlier days are offered.
MOST_OFFERED = 12


def state_folder() -> pathlib.Path:
    """Where boards are kept: as DIAG_BOARDS says, else in the user's state folder."""
    state = os.environ.get("XDG_STATE_HOME") or os.path.expanduser("~/.local/state")
    return pathlib.Path(os.environ.get("DIAG_BOARDS") or pathlib.Path(state, "diag"))


class Shelf:
    """The folder of one bench. `why` says why nothing is kept, and is empty if all is well."""

    def __init__(self, file: str | os.PathLike[str]) -> None:
        self.why = ""
        self._lock: IO[str] | None = None
        path = pathlib.Path(file).resolve()
        name = f"{path.name}-{hashlib.sha256(os.fsencode(path)).hexdigest()[:8]}"
        for number in itertools.count(1):
            self.folder = state_folder() / (name if number == 1 else f"{name}-{number}")
            try:
                self.folder.mkdir(mode=0o700, parents=True, exist_ok=True)
                # One that is there already may be open to others. Of a folder of another user this is refused.
                self.folder.chmod(0o700)
                self._lock = open(self.folder / "lock", "a")
                fcntl.flock(self._lock, fcntl.LOCK_EX | fcntl.LOCK_NB)
                return
            except BlockingIOError:
                # Another bench of this device is running.
                self.close()
            except OSError as error:
                self.why = f"boards are not saved: {error}"
                # Nothing is read there either, since whoever may write there could choose the tokens.
                self.folder = pathlib.Path(os.devnull)
                return

    def close(self) -> None:
        """Lets another bench have the folder."""
        if self._lock is not None:
            self._lock.close()

    def addresses(self) -> dict[str, str]:
        """The port and the tokens that were used here last."""
        with contextlib.suppress(OSError, ValueError, AttributeError):
            return {str(name): str(word) for name, word in json.loads((self.folder / "addresses").read_text()).items()}
        return {}

    def keep(self, name: str, text: str) -> None:
        """Writes a file that is the user's alone."""
        try:
            write_whole(self.folder / name, text.encode("utf-8", "surrogateescape"), 0o600)
            self.why = ""
        except OSError as error:
            self.why = self.why or f"boards are not saved: {error}"

    def place(self, board: str) -> pathlib.Path:
        """The file of a board."""
        return self.folder / f"{board}.script"

    def text(self, board: str) -> str | None:
        """What was saved of a board."""
        if not BOARD_ID.fullmatch(board):
            return None
        with contextlib.suppress(OSError):
            return self.place(board).read_bytes().decode("utf-8", "surrogateescape")
        return None

    def earlier(self) -> list[tuple[float, str, int]]:
        """The boards saved last: when, the board, and how many readings it has."""
        with contextlib.suppress(OSError):
            found = sorted(((file.stat().st_mtime, file) for file in self.folder.glob("*.script")), reverse=True)[:MOST_OFFERED]
            return [(at, file.stem, sum(line.startswith(b"see ") for line in file.read_bytes().splitlines())) for at, file in found]
        return []
