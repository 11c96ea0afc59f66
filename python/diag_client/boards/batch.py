"""Many boards: batches of them are answered side by side, and come out in the order of the readings."""

from __future__ import annotations

import collections
import contextlib
import os
from collections.abc import Iterable, Iterator, Mapping
from concurrent.futures import CancelledError, Future
from typing import Any, Protocol

from ..program import find_program
from .answering import Wanted
from .cluster import Cluster
from .results import Result, failed
from .stream import BoardRows, Readings
from .tables import BadTable
from .workers import Answers, Batch, Device, Processes, UnusableCluster

# A batch is to take so many seconds, and has at most so many boards; how long a board takes is known after the first, small ones.
GOAL = 0.1
MOST_BOARDS = 1000
FIRST_BOARDS = 16
# So many batches, and as many again for each worker, are under way or wait to be written.
ROOM = 16


class Pool(Protocol):
    """What answers batches, side by side."""

    lost: tuple[type[Exception], ...]

    @property
    def size(self) -> int:
        """How many batches are answered at a time."""

    def device(self, path: str) -> Device:
        """A device as the workers get it."""

    def submit(self, what: str, batch: Batch) -> Future[Any]:
        """Lets a worker answer."""

    def stop(self) -> None:
        """Ends what was started."""


def processors() -> int:
    """How many processors this process may use."""
    return len(os.sched_getaffinity(0))


def make_pool(jobs: int | None, cluster: str | None) -> Pool:
    """The workers: processes on this machine, or those of a cluster."""
    if cluster is not None:
        return Cluster(cluster)
    return Processes(processors() if jobs is None else jobs)


class Answering:
    """The boards of a table as they are answered, batch by batch, in order."""

    def __init__(self, file: str | os.PathLike[str], readings: Readings, wanted: Wanted, pool: Pool) -> None:
        self._file = os.fspath(file)
        self._readings = readings
        self._wanted = wanted
        self._pool = pool
        self._devices: dict[str, Device] = {"": pool.device(self._file)}
        self._size = FIRST_BOARDS

    def check(self) -> None:
        """Raises what is wrong with the device, or with the columns of the table."""
        batch = Batch(self._wanted, self._readings.layout, {"": self._devices[""]}, ())
        if why := self._again("wrong_columns", batch):
            raise BadTable(f"{self._readings.title}: {why}")

    def answers(self, boards: Iterable[BoardRows]) -> Iterator[tuple[Batch, Answers]]:
        """What is said of these boards."""
        waiting: collections.deque[tuple[Batch, Future[Answers]]] = collections.deque()
        for batch in self._batches(boards):
            waiting.append((batch, self._pool.submit("answer", batch)))
            while waiting and (waiting[0][1].done() or len(waiting) > ROOM + self._pool.size):
                yield waiting[0][0], self._taken(*waiting.popleft())
        while waiting:
            yield waiting[0][0], self._taken(*waiting.popleft())

    def _batches(self, boards: Iterable[BoardRows]) -> Iterator[Batch]:
        batch: list[BoardRows] = []
        for board in boards:
            batch.append(board)
            if len(batch) >= self._size:
                yield self._batch(batch)
                batch = []
        if batch:
            yield self._batch(batch)

    def _batch(self, boards: list[BoardRows]) -> Batch:
        devices = {name: self._device(name) for name in dict.fromkeys(board.device for board in boards)}
        return Batch(self._wanted, self._readings.layout, devices, boards)

    def _device(self, name: str) -> Device:
        """A device by its name in the table, which is that of a file beside the table."""
        if name not in self._devices:
            self._devices[name] = self._pool.device(os.fspath(self._readings.folder / name))
        return self._devices[name]

    def _taken(self, batch: Batch, future: Future[Answers]) -> Answers:
        """The answers of a batch. If its worker is lost, each board is tried alone, and one that is lost then is tried once more."""
        try:
            answers = future.result()
        except CancelledError:
            raise UnusableCluster("the cluster is gone") from None
        except self._pool.lost:
            if len(batch.boards) > 1:
                return Answers.joined([self._taken(single, self._pool.submit("answer", single)) for single in batch.each()])
            try:
                answers = self._again("answer", batch)
            except self._pool.lost as error:
                return Answers.of(batch.boards, [failed(f"the worker was lost: {error}")])
        boards = len(batch.boards)
        self._size = max(1, min(MOST_BOARDS, 4 * boards, int(boards * GOAL / max(answers.seconds, 1e-6))))
        return answers

    def _again(self, what: str, batch: Batch) -> Any:
        """What a worker answers. If it is lost, another one is asked once."""
        with contextlib.suppress(*self._pool.lost):
            return self._pool.submit(what, batch).result()
        return self._pool.submit(what, batch).result()


def wanted_of(
    limit: int, blame: bool, best: bool, seconds: bool, timeout: float | None, options: Mapping[str, Any], cluster: str | None
) -> Wanted:
    """What is asked of each board. On this machine all workers start the program that this process finds."""
    given = dict(options)
    if cluster is None and given.get("program") is None:
        given["program"] = find_program()
    return Wanted(limit, blame, best, seconds, timeout, given)


def diagnose_boards(
    file: str | os.PathLike[str],
    readings: str | os.PathLike[str] | Iterable[Mapping[str, Any]],
    *,
    limit: int = 10,
    blame: bool = False,
    next: bool = False,
    seconds: bool = False,
    timeout: float | None = None,
    ignore: Iterable[str] = (),
    jobs: int | None = None,
    cluster: str | None = None,
    **options: Any,
) -> Iterator[Result]:
    """What is said of each board of a table, in order, while other boards are answered: see docs/SCALING.md.

    `readings` is a file, or rows as mappings: `board` names the board, and each other key is a wire. `limit` is how many sets are listed;
    `blame`, `next` and `seconds` ask for more. `options` are those of `Service`.

    >>> rows = [{"board": "B1", "1": 0, "3": 0, "22": 1, "16": 1}, {"board": "B2", "22": 2}]
    >>> for result in diagnose_boards("examples/c17.bench", rows, jobs=1):
    ...     print(result.board, result.status, result.cost, result.diagnoses, result.reason)
    B1 ok 1 (('10',), ('22',)) None
    B2 refused None () line 2, column 22: a reading is 0 or 1, and X, Z, - or nothing if there is none: '2'
    """
    table = Readings(readings, ignore)
    pool = make_pool(jobs, cluster)
    try:
        answering = Answering(file, table, wanted_of(limit, blame, next, seconds, timeout, options, cluster), pool)
        answering.check()
        for _, answers in answering.answers(table):
            yield from map(Result.of, answers.lines.splitlines())
    finally:
        pool.stop()
        table.close()
