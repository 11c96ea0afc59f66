"""Processes on this machine, each with the program of each device, that answer batches of boards; and what every worker does with one."""

from __future__ import annotations

import collections
import contextlib
import dataclasses
import gc
import hashlib
import os
import pathlib
import pickle
import queue
import signal
import subprocess
import sys
import tempfile
import threading
import time
import zlib
from collections.abc import Mapping, Sequence
from concurrent.futures import Future, ThreadPoolExecutor
from typing import Any

from ..errors import DiagError, Ended, NotBuilt, shown
from .answering import Desk, Wanted, why
from .results import Outcome, Tally, failed
from .stream import DEVICE, BoardRows, Layout

# So many programs at most are kept by one worker: one for each device that it had last.
MOST_DESKS = 32
# The exit statuses of the program for a device that it refuses.
FAULTY, TOO_WIDE = 1, 3
# The tables with other names of wires, which `diag-netlist` writes beside a device.
TABLES = (".names", ".pins")
# So many columns that are wrong are named.
MOST_SHOWN = 5
# What a worker runs. It takes this package from where this process has it, and nothing from the folder that it is started in.
START = "import sys; sys.path.insert(0, sys.argv[1]); from diag_client.boards import workers; workers.main()"
# So many seconds a worker that is asked nothing more may take to end.
PATIENCE = 1.0
HOME = pathlib.Path(__file__).resolve().parents[2]


class UnusableCluster(DiagError):
    """The cluster is not there, or cannot answer. The text says what to do."""


class WorkerLost(DiagError):
    """A worker has ended before it answered."""


@dataclasses.dataclass(frozen=True)
class Device:
    """A device by the path of its file; for a machine that has no such file, with what is in it and in the tables beside it."""

    path: str
    files: Mapping[str, bytes] | None = None

    @classmethod
    def packed(cls, path: str) -> Device:
        """A device for other machines. If its file cannot be read, the worker says so."""
        names = [path + ending for ending in ("", *TABLES)]
        try:
            read = {name: pathlib.Path(name).read_bytes() for name in names if name == path or os.path.exists(name)}
            return cls(path, {os.path.basename(name): zlib.compress(data) for name, data in read.items()})
        except OSError:
            return cls(path)

    @property
    def key(self) -> str:
        """A short name that differs if the device does."""
        if self.files is None:
            return self.path
        return hashlib.sha256(repr(sorted(self.files.items())).encode()).hexdigest()

    def unpacked(self) -> tempfile.TemporaryDirectory[str] | None:
        """A folder with its files, if they have to be written on this machine."""
        if self.files is None:
            return None
        folder = tempfile.TemporaryDirectory(prefix="diag-")
        for name, data in self.files.items():
            (pathlib.Path(folder.name) / name).write_bytes(zlib.decompress(data))
        return folder


@dataclasses.dataclass(frozen=True)
class Batch:
    """Boards to be answered one after the other, and the devices that they name."""

    wanted: Wanted
    layout: Layout
    devices: Mapping[str, Device]
    boards: Sequence[BoardRows]

    def __reduce__(self) -> tuple[Any, ...]:
        # Plain tuples are packed and unpacked much faster.
        return _batch, (self.wanted, self.layout, self.devices, [tuple(board) for board in self.boards])

    def each(self) -> list[Batch]:
        """A batch for each board."""
        return [dataclasses.replace(self, boards=[board]) for board in self.boards]


def _batch(wanted: Wanted, layout: Layout, devices: Mapping[str, Device], boards: Sequence[tuple[Any, ...]]) -> Batch:
    return Batch(wanted, layout, devices, list(map(BoardRows._make, boards)))


@dataclasses.dataclass
class Answers:
    """Lines of results, one for each board of a batch, what they count, and how long they took."""

    lines: bytes
    tally: Tally
    seconds: float = 0.0

    @classmethod
    def of(cls, boards: Sequence[BoardRows], outcomes: Sequence[Outcome], seconds: float = 0.0) -> Answers:
        """What is said of these boards."""
        lines = [outcome.line(board.name) for board, outcome in zip(boards, outcomes, strict=True)]
        tally = Tally()
        for outcome, count in collections.Counter(outcomes).items():
            tally.count(outcome.status, outcome.suspects, count)
        return cls("".join(lines).encode("ascii"), tally, seconds)

    @classmethod
    def joined(cls, parts: Sequence[Answers]) -> Answers:
        """Those of several batches, one after the other."""
        tally = Tally()
        for part in parts:
            tally.add(part.tally)
        return cls(b"".join(part.lines for part in parts), tally)


class _Desks:
    """The devices that are served in this process, for one or more runs: by each thread that answers, since a service is for one thread."""

    def __init__(self) -> None:
        self._lock = threading.Lock()
        self._of: dict[tuple[str, int, str], Desk] = {}
        self._folders: dict[tuple[str, str], tempfile.TemporaryDirectory[str] | None] = {}
        self._refused: dict[tuple[str, str], Ended] = {}

    def get(self, run: str, device: Device, wanted: Wanted) -> Desk:
        """A device, served."""
        key = run, threading.get_ident(), device.key
        with self._lock:
            if (run, device.key) in self._refused:
                raise self._refused[run, device.key]
            desk = self._of.pop(key, None)
            folder = self._folders.get((run, device.key)) or device.unpacked()
            self._folders[run, device.key] = folder
        if desk is None:
            file = device.path if folder is None else os.path.join(folder.name, os.path.basename(device.path))
            try:
                desk = _opened(file, wanted)
            except Ended as ended:
                # What is wrong with the device stays so.
                if ended.status in (FAULTY, TOO_WIDE):
                    self._refused[run, device.key] = ended
                raise
        with self._lock:
            self._of[key] = desk
            own = [known for known in self._of if known[:2] == key[:2]]
            dropped = [self._of.pop(known) for known in own[:-MOST_DESKS]]
        for old in dropped:
            old.stop()
        return desk

    def stop(self, run: str) -> None:
        """Ends all programs of a run."""
        with self._lock:
            desks = [self._of.pop(key) for key in list(self._of) if key[0] == run]
            folders = [self._folders.pop(key) for key in list(self._folders) if key[0] == run]
        for desk in desks:
            desk.stop()
        for folder in folders:
            if folder is not None:
                folder.cleanup()


def _opened(file: str, wanted: Wanted) -> Desk:
    try:
        return Desk(file, wanted)
    except Ended as ended:
        # If a signal ended the program, the device need not be the reason.
        if ended.status >= 0:
            raise
        return Desk(file, wanted)


DESKS = _Desks()


def wrong_columns(batch: Batch, run: str = "") -> str:
    """What is wrong with the columns of a table for the one device of a batch. Raises what its program says against the device."""
    device, = batch.devices.values()
    columns = DESKS.get(run, device, batch.wanted).columns(batch.layout)
    if columns.clashing:
        return f"the device has a wire {columns.clashing[0]}, and a column of that name is none here"
    # Another device may have the wires.
    if columns.unknown and DEVICE not in batch.layout.columns:
        names = [repr(shown(name)) for name in columns.unknown[:MOST_SHOWN]] + [".."] * (len(columns.unknown) > MOST_SHOWN)
        return f"no wire {', '.join(names)}; --ignore NAME passes over a column"
    return ""


def stop(run: str) -> None:
    """Ends all programs of a run in this process."""
    DESKS.stop(run)


def answer(batch: Batch, run: str = "") -> Answers:
    """What is said of each board of a batch."""
    begun = time.monotonic()
    outcomes: dict[int, Outcome] = {}
    for name, device in batch.devices.items():
        places = [place for place, board in enumerate(batch.boards) if board.device == name]
        found = _of_device(run, batch, device, [batch.boards[place] for place in places])
        outcomes |= zip(places, found, strict=True)
    return Answers.of(batch.boards, [outcomes[place] for place in range(len(batch.boards))], time.monotonic() - begun)


def _of_device(run: str, batch: Batch, device: Device, boards: Sequence[BoardRows]) -> list[Outcome]:
    try:
        return DESKS.get(run, device, batch.wanted).outcomes(batch.layout, boards)
    except NotBuilt:
        raise
    except (DiagError, OSError, ValueError) as error:
        # The device is refused, or its file is not there.
        reason = why(error)
        return [failed(reason if device.path in reason else f"{device.path}: {reason}")] * len(boards)


class _Worker:
    """A process that answers, and is started again once it has ended."""

    def __init__(self) -> None:
        self._process: subprocess.Popen[bytes] | None = None
        self._is_over = False
        self._lock = threading.Lock()

    def ask(self, what: str, batch: Batch) -> Any:
        """What a function of this module answers about a batch."""
        process = self.start()
        assert process.stdin and process.stdout
        try:
            pickle.dump((what, batch), process.stdin)
            process.stdin.flush()
            answered = pickle.load(process.stdout)
        except (OSError, EOFError, pickle.UnpicklingError):
            self.stop(PATIENCE)
            raise WorkerLost(f"the worker process {_ended(process.returncode)}") from None
        if isinstance(answered, Exception):
            raise answered
        return answered

    def end(self) -> None:
        """Lets it end, for good. Its programs see the end of their scripts."""
        with self._lock:
            self._is_over = True
            if self._process is not None and self._process.stdin:
                with contextlib.suppress(OSError):
                    self._process.stdin.close()

    def stop(self, patience: float = 0.0) -> None:
        """Waits for its end for so many seconds, and then ends it at once."""
        process, self._process = self._process, None
        if process is not None:
            with contextlib.suppress(subprocess.TimeoutExpired):
                process.wait(patience)
            process.kill()
            process.wait()
            for end in (process.stdin, process.stdout):
                if end is not None:
                    # What was not written yet cannot be.
                    with contextlib.suppress(OSError):
                        end.close()

    def start(self) -> subprocess.Popen[bytes]:
        """The process, which is started if there is none."""
        with self._lock:
            if self._is_over:
                raise WorkerLost("the workers were ended")
            if self._process is None:
                # It needs nothing else that is installed. A group of its own: an interrupt at the terminal is for the one who asks.
                words = [sys.executable, "-P", "-S", "-c", START, str(HOME)]
                self._process = subprocess.Popen(words, stdin=subprocess.PIPE, stdout=subprocess.PIPE, process_group=0)
            return self._process


def _ended(status: int) -> str:
    return f"ended with signal {-status} ({signal.strsignal(-status)})" if status < 0 else f"ended with status {status}"


class Processes:
    """So many workers on this machine."""

    lost: tuple[type[Exception], ...] = (WorkerLost,)

    def __init__(self, jobs: int) -> None:
        self.size = jobs
        self._threads = ThreadPoolExecutor(jobs)
        self._workers = [_Worker() for _ in range(jobs)]
        self._idle: queue.SimpleQueue[_Worker] = queue.SimpleQueue()
        for worker in self._workers:
            worker.start()
            self._idle.put(worker)

    def device(self, path: str) -> Device:
        """A device as the workers get it."""
        return Device(path)

    def submit(self, what: str, batch: Batch) -> Future[Any]:
        """Lets the next worker that is idle answer."""
        return self._threads.submit(self._ask, what, batch)

    def stop(self) -> None:
        """Ends all workers, whatever they do."""
        self._threads.shutdown(wait=False, cancel_futures=True)
        for worker in self._workers:
            worker.end()
        for worker in self._workers:
            worker.stop(PATIENCE)
        self._threads.shutdown()

    def _ask(self, what: str, batch: Batch) -> Any:
        worker = self._idle.get()
        try:
            return worker.ask(what, batch)
        finally:
            self._idle.put(worker)


def main() -> None:
    """What a worker does: it answers until nobody asks any more."""
    signal.signal(signal.SIGINT, signal.SIG_IGN)
    # What is loaded by now stays, and what comes and goes has few cycles.
    gc.freeze()
    gc.set_threshold(100_000)
    # The main thread alone may be interrupted, and has to look out for that at each step.
    thread = threading.Thread(target=_answer_all)
    thread.start()
    thread.join()
    os._exit(0)


def _answer_all() -> None:
    asked, answers = sys.stdin.buffer, sys.stdout.buffer
    sys.stdout = sys.stderr
    with contextlib.suppress(EOFError, BrokenPipeError):
        while True:
            what, batch = pickle.load(asked)
            try:
                answered = globals()[what](batch)
            except MemoryError:
                os._exit(1)
            except Exception as error:
                answered = error
            pickle.dump(answered, answers)
            answers.flush()
    stop("")
