"""What a notebook shows: the picture of a session if Graphviz is here, else a table, and tables of answers."""

from __future__ import annotations

import dataclasses
import html
import itertools
import weakref
from collections.abc import Callable, Iterable, Iterator, Mapping, Sequence
from typing import TYPE_CHECKING, TypeVar

from . import replies
from .errors import DiagError
from .pictures import graphviz

if TYPE_CHECKING:
    from .pictures.findings import Findings
    from .session import Session

Row = TypeVar("Row")

# A table shows so many rows at most, and that of a session so many diagnoses.
MOST_ROWS = 60
MOST_DIAGNOSES = 10

# The picture of each session, with the case that it was drawn for: a notebook asks for it several times.
_drawn: weakref.WeakKeyDictionary[Session, tuple[object, str | None]] = weakref.WeakKeyDictionary()


class Rows(list[Row]):
    """A list that a notebook shows as a table."""

    def _repr_html_(self) -> str:
        return table(self)


class Listed(Iterator[Row]):
    """Rows that are taken one after the other. A notebook shows the first of them in a listing of its own, and takes none."""

    def __init__(self, begin: Callable[[], Iterator[Row]]) -> None:
        self._begin = begin
        self._rows = begin()

    def __next__(self) -> Row:
        return next(self._rows)

    def _repr_html_(self) -> str:
        try:
            return table(itertools.islice(self._begin(), MOST_ROWS + 1), is_whole=False)
        except DiagError as error:
            return f"<p>{html.escape(str(error))}</p>"


def table(rows: Iterable[object], is_whole: bool = True) -> str:
    """Rows of data classes as a table in HTML, suspects first. How many are left out is said if these are all that there are.

    >>> from diag_client import Probe
    >>> print(table([Probe("16", 0, None)]))
    <table><tr><th>wire</th><th>if zero</th><th>if one</th></tr><tr><td>16</td><td>0</td><td>-</td></tr></table>
    """
    rows = list(rows)
    verdicts = list(replies.Verdict)
    rows.sort(key=lambda row: verdicts.index(row.verdict) if isinstance(row, replies.Blame) else 0)
    if not rows:
        return "<p>none</p>"
    cells = [_cells(row) for row in rows[:MOST_ROWS]]
    left = len(rows) - len(cells)
    note = f"<p>and {f'{left} ' if is_whole else ''}more</p>" if left else ""
    return _table(list(cells[0]), [list(row.values()) for row in cells]) + note


def _table(heads: Sequence[str], rows: Iterable[Sequence[str]]) -> str:
    """A table of cells that are HTML already."""
    lines = [f"<tr>{''.join(f'<th>{html.escape(head)}</th>' for head in heads)}</tr>"]
    lines += [f"<tr>{''.join(cell if cell.startswith('<td') else f'<td>{cell}</td>' for cell in row)}</tr>" for row in rows]
    return f"<table>{''.join(lines)}</table>"


def _cells(row: object) -> dict[str, str]:
    """The fields of a row, by their names in words."""
    assert dataclasses.is_dataclass(row)
    cells = {field.name.replace("_", " "): _cell(getattr(row, field.name)) for field in dataclasses.fields(row)}
    if hasattr(row, "expected_left"):
        cells["expected left"] = f"{float(row.expected_left):.1f}"
    return cells


def _cell(value: object) -> str:
    from .pictures.picture import FILLS

    if isinstance(value, replies.Verdict):
        return f'<td style="background:{FILLS[value]};color:black">{value}</td>'
    if isinstance(value, bool):
        return "yes" if value else "no"
    if isinstance(value, tuple):
        return html.escape(" ".join(map(str, value))) or "nothing"
    return "-" if value is None else html.escape(str(value))


def svg(session: Session) -> str | None:
    """The picture of a session, or None if there is none: without `dot`, without gates, or once the session is closed."""
    from .devices import read_device
    from .pictures import picture
    from .pictures.findings import Findings

    service = session.service
    if graphviz.find_dot() is None or service.file.suffix not in (".bench", ".dev") or not session.is_open:
        return None
    case = session.case
    known, drawn = _drawn.get(session, (None, None))
    if known != case:
        try:
            text = picture.dot_text(read_device(service.file), Findings.of(session), service.title)
            drawn = graphviz.layout(text, "svg").decode()
        except (DiagError, OSError):
            # A notebook would show the error in place of the session.
            return None
        _drawn[session] = (case, drawn)
    return drawn


def session_html(session: Session) -> str | None:
    """The case of a session as tables, if there is no picture of it."""
    from .pictures.findings import Findings

    if not session.is_open or svg(session) is not None:
        return None
    try:
        found = Findings.of(session)
        diagnoses = list(session.diagnoses(MOST_DIAGNOSES + 1)) if found.cost is not None else []
    except DiagError:
        return None
    told = [f"{session.service.title}; session {session.name}", found.summary()]
    if diagnoses:
        more = ", and more" if len(diagnoses) > MOST_DIAGNOSES else ""
        told.append(f"diagnoses: {', '.join(map(str, diagnoses[:MOST_DIAGNOSES]))}{more}")
    if found.following:
        told.append(f"measure next: {found.following}")
    return f"<p>{'<br>'.join(map(html.escape, told))}</p>" + _readings(found) + _held(found.case.held)


def _readings(found: Findings) -> str:
    wrong = set(found.wrong())
    rows = []
    for name, bit in found.case.seen.items():
        expected = str(found.expected.get(name, "-"))
        rows.append([html.escape(name), str(bit), f'<td style="color:#d7191c">{expected}</td>' if name in wrong else expected])
    return _table(["wire", "seen", "expected"], rows) if rows else ""


def _held(held: Mapping[str, str]) -> str:
    return _table(["part", "held"], [[html.escape(part), html.escape(mode)] for part, mode in held.items()]) if held else ""
