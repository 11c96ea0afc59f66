"""Graphviz's `dot`: the form of a picture by its ending."""

from __future__ import annotations

import os
import pathlib
import shutil
import subprocess

from ..errors import DiagError
from ..files import write_whole

# A picture of the most parts that are drawn unasked takes well under a second.
PATIENCE = 60.0
TEXTS = (".dot", ".gv")
NO_DOT = "Graphviz's `dot` is not here (Debian: graphviz)"


def find_dot() -> str | None:
    """The path of Graphviz's program, if it is here."""
    return shutil.which("dot")


def layout(text: str, form: str) -> bytes:
    """What `dot` draws, in a form that it knows, such as svg."""
    program = find_dot()
    if program is None:
        raise DiagError(NO_DOT)
    try:
        drawn = subprocess.run([program, f"-T{form}"], input=text.encode(), capture_output=True, check=False, timeout=PATIENCE)
    except subprocess.TimeoutExpired:
        raise DiagError(f"dot was stopped after {PATIENCE:.0f} seconds: draw fewer parts, by a smaller --most") from None
    said = drawn.stderr.decode(errors="replace").strip().split("\n")[0]
    if drawn.returncode != 0 or not drawn.stdout and said:
        raise DiagError(f"dot -T{form}: {said or f'status {drawn.returncode}'}")
    return drawn.stdout


def check_output(path: str | os.PathLike[str]) -> pathlib.Path:
    """The path to write to, ~ replaced. Raises `DiagError` if its ending is no form that can be drawn, or its folder is not there."""
    path = pathlib.Path(os.path.expanduser(path))
    form = path.suffix.lower()
    if not form[1:]:
        raise DiagError(f"{path}: its ending says which form it has; give it one, such as {path.name}.svg")
    if not path.parent.is_dir():
        raise DiagError(f"{path}: there is no folder {path.parent}")
    if form not in TEXTS and find_dot() is not None:
        layout("graph {}", form[1:])
    return path


def render(text: str, path: str | os.PathLike[str]) -> pathlib.Path:
    """Writes a picture, by `dot` unless the ending is `.dot`, and gives the path of what was written.

    If there is no `dot`, that is the graph's text alone, with the ending `.dot`. What was there before stays until all is written.
    """
    path = check_output(path)
    form = path.suffix.lower()
    if form in TEXTS or find_dot() is None:
        path = path if form in TEXTS else path.with_suffix(".dot")
        write_whole(path, text.encode())
    else:
        write_whole(path, layout(text, form[1:]))
    return path
