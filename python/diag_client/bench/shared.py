"""One service for many threads: each question has to wait for its turn, and what answers a click comes before what looks for advice."""

from __future__ import annotations

import contextlib
import dataclasses
import heapq
import itertools
import threading
from collections.abc import Callable, Iterator, Sequence
from typing import Any

from ..errors import DiagError
from ..replies import Lines, Request
from ..service import Service

# What is asked for, the most urgent first: an answer to a click, a search over several patterns, the next measurement.
CLICK, SEARCH, ADVICE = range(3)
# So many searches and so many pieces of advice are under way at once. Each needs sessions of its own.
MOST_AT_WORK = {SEARCH: 4, ADVICE: 2}
# After so many seconds without room it is asked whether anybody still wants the answer.
PATIENCE = 0.05


class Dropped(DiagError):
    """The answer is wanted no more, since the board was changed."""


class Lost(DiagError):
    """Another thread started the program again, so what was asked before is worth nothing."""

    def __str__(self) -> str:
        return "it was started again"


class Turns:
    """Who may ask now: one at a time. The turn is handed to the most urgent of those who wait, and of these to the first."""

    def __init__(self) -> None:
        self._lock = threading.Lock()
        self._is_taken = False
        self._waiting: list[tuple[int, int, threading.Lock]] = []
        self._numbers = itertools.count()

    @contextlib.contextmanager
    def taken(self, rank: int) -> Iterator[None]:
        """Waits for a turn, which ends with the block."""
        mine = threading.Lock()
        with mine:
            with self._lock:
                has_to_wait, self._is_taken = self._is_taken, True
                if has_to_wait:
                    heapq.heappush(self._waiting, (rank, next(self._numbers), mine))
            if has_to_wait:
                # Whoever ends a turn opens this lock, and the turn is ours.
                mine.acquire()
            try:
                yield
            finally:
                self._pass_on()

    def _pass_on(self) -> None:
        with self._lock:
            if self._waiting:
                heapq.heappop(self._waiting)[2].release()
            else:
                self._is_taken = False


@dataclasses.dataclass(frozen=True)
class Errand:
    """What a thread asks for, and how often the program had been started again when it began."""

    rank: int
    restarts: int
    is_dropped: Callable[[], bool]


class SharedService(Service):
    """A service for many threads, each of which uses sessions of its own.

    A click is asked in one piece. Of a search and of advice each question has a turn of its own, so that nobody waits longer than for one.
    """

    def __init__(self, *words: Any, **options: Any) -> None:
        self.restarts = 0
        self._turns = Turns()
        self._room = {rank: threading.BoundedSemaphore(most) for rank, most in MOST_AT_WORK.items()}
        self._here = threading.local()
        super().__init__(*words, **options)

    @contextlib.contextmanager
    def errand(self, rank: int, is_dropped: Callable[[], bool] = lambda: False) -> Iterator[int]:
        """What this thread asks in the block has this rank. Gives how often the program was started again before.

        Raises `Dropped` if `is_dropped` says so between two questions, and `Lost` if the program was started again meanwhile.
        """
        errand = Errand(rank, self.restarts, is_dropped)
        with contextlib.ExitStack() as stack:
            if room := self._room.get(rank):
                while not room.acquire(timeout=PATIENCE):
                    if is_dropped():
                        raise Dropped
                stack.callback(room.release)
            self._here.errand = errand
            stack.callback(self._here.__dict__.clear)
            yield errand.restarts

    def carry_out(self, requests: Sequence[Request]) -> None:
        errand = self._errand()
        for piece in [requests] if errand.rank == CLICK else pieces(requests):
            with self._turns.taken(errand.rank):
                if errand.restarts != self.restarts:
                    raise Lost
                if errand.is_dropped():
                    raise Dropped
                super().carry_out(piece)

    def send(self, requests: Sequence[Request]) -> None:
        with self._turns.taken(self._errand().rank):
            super().send(requests)

    def catch_up(self) -> None:
        with self._turns.taken(self._errand().rank):
            super().catch_up()

    def revive(self, restarts: int) -> None:
        """Starts the program again, unless that was done since it had been started again so often."""
        with self._turns.taken(CLICK):
            if self.restarts == restarts:
                self.restart()
                self.restarts += 1

    def _errand(self) -> Errand:
        errand: Errand | None = getattr(self._here, "errand", None)
        return errand or Errand(CLICK, self.restarts, lambda: False)


def pieces(requests: Sequence[Request]) -> Iterator[list[Request]]:
    """One question each, with the changes before it."""
    piece: list[Request] = []
    for request in requests:
        piece.append(request)
        if not isinstance(request, Lines):
            yield piece
            piece = []
    if piece:
        yield piece
