"""What the commands `diag-shell`, `diag-picture`, `diag-bench` and `diag-boards` run, which an installed package has."""

from __future__ import annotations

import sys

from . import __main__ as program


def _run(command: str) -> int:
    sys.argv[1:1] = [command]
    return program.main()


def shell() -> int:
    """`python3 -m diag_client shell`."""
    return _run("shell")


def picture() -> int:
    """`python3 -m diag_client picture`."""
    return _run("picture")


def bench() -> int:
    """`python3 -m diag_client bench`."""
    return _run("bench")


def boards() -> int:
    """`python3 -m diag_client boards`."""
    return _run("boards")
