"""A program that runs beside this one: lines go in and come out as they come, and neither side waits for the other to read."""

from __future__ import annotations

import collections
import contextlib
import logging
import math
import os
import selectors
import shlex
import signal
import subprocess
import sys
import threading
import time
import types
import warnings
import weakref
from collections.abc import Callable, Iterable, Iterator, Sequence
from typing import IO

from .errors import Ended, OtherProcess, TimedOut
from .replies import NotAReply, Request

PIECE = 65536
# A signal that comes just before a wait begins does not end it. So no wait takes more seconds than this.
LONGEST_WAIT = 0.5
# So many seconds a program that writes nothing more may take to end.
PATIENCE = 10.0
# So much of what was said on standard error is kept.
SAID = 4096

LOG = logging.getLogger("diag_client")


@contextlib.contextmanager
def interrupts_held_back() -> Iterator[None]:
    """An interrupt comes at the end of the block, and not within it. No thread but the main one is ever interrupted."""
    if threading.current_thread() is not threading.main_thread() or signal.getsignal(signal.SIGINT) is None:
        yield
        return
    came: list[tuple[int, types.FrameType | None]] = []
    before = signal.signal(signal.SIGINT, lambda number, frame: came.append((number, frame)))
    try:
        yield
    finally:
        signal.signal(signal.SIGINT, before)
    if came and callable(before):
        before(*came[-1])


def _kill(process: subprocess.Popen[bytes]) -> None:
    """Ends a program and what it started, whatever they do."""
    with contextlib.suppress(ProcessLookupError):
        os.killpg(process.pid, signal.SIGKILL)


def _let_go(process: subprocess.Popen[bytes], owner: int, words: tuple[str, ...]) -> None:
    """Ends a program that nobody can ask any more: its client was dropped unclosed, or the interpreter ends."""
    is_own = os.getpid() == owner
    if is_own:
        _kill(process)
    for end in (process.stdin, process.stdout, process.stderr):
        if end is not None:
            end.close()
    if not is_own:
        # It goes on, and is not this process's to wait for.
        process.returncode = 0
        return
    process.wait()
    warnings.warn(f"a Service was not closed: {' '.join(words)}", ResourceWarning, stacklevel=2)


class Child:
    """The running program, and what it still has to answer.

    What is asked is written whole, and while it is written all that is answered is read, so that no pipe is full while both sides wait.
    An interrupt leaves all in step: what was asked stays asked, and its replies are taken when they come. Of several threads one asks at
    a time, and the others wait.

    The program ends with the last reference to its child, and with the interpreter. After a fork it is that of the first process.
    """

    def __init__(self, words: Sequence[str], timeout: float | None, closings: Callable[[], Iterable[Request]]) -> None:
        self._words = tuple(words)
        self._timeout = timeout
        # What is asked before all else, whenever something is asked.
        self._closings = closings
        self._owner = os.getpid()
        with interrupts_held_back():
            # A group of its own: an interrupt at the terminal is for the one who asks.
            self._process = subprocess.Popen(
                self._words, stdin=subprocess.PIPE, stdout=subprocess.PIPE, stderr=subprocess.PIPE, bufsize=0, process_group=0
            )
            self._finalizer = weakref.finalize(self, _let_go, self._process, self._owner, self._words)
        assert self._process.stdin and self._process.stdout and self._process.stderr
        self._input = self._process.stdin
        self._output = self._process.stdout
        self._errors = self._process.stderr
        self._selector = selectors.DefaultSelector()
        for end in (self._input, self._output, self._errors):
            os.set_blocking(end.fileno(), False)
        self._watched: set[IO[bytes]] = set()
        self._watch(self._output, selectors.EVENT_READ)
        self._watch(self._errors, selectors.EVENT_READ)
        self._unsent = bytearray()
        self._begun = bytearray()
        self._awaited: collections.deque[Request] = collections.deque()
        self._last_line = ""
        self._said = ""
        # A line that answered nothing, and what is said of it.
        self._stray = ("", "")
        self._in_step = True
        # Held by the thread that writes or reads. To name what is refused, it may ask once more while it follows a reply.
        self._lock = threading.RLock()
        self._over: Ended | None = None
        # What was asked and not answered when it ended.
        self.unanswered: list[Request] = []

    @property
    def is_running(self) -> bool:
        """Whether it still answers, as far as was seen."""
        return self._over is None

    @property
    def is_own(self) -> bool:
        """Whether it belongs to this process, and not to the one that this process was forked from."""
        return os.getpid() == self._owner

    def expect(self, request: Request) -> None:
        """Waits for what it says unasked."""
        self._awaited.append(request)
        self._finish_reply(request)

    def ask(self, requests: Sequence[Request]) -> None:
        """Asks all of these at once, and waits for their replies."""
        if requests:
            self.send(requests)
            self._finish_reply(requests[-1])

    def follow(self, requests: Sequence[Request]) -> Iterator[None]:
        """Asks all of these at once, and comes back each time that something of the replies was read, until they are complete."""
        self.send(requests)
        if requests:
            yield from self._run_until(requests[-1])

    def send(self, requests: Sequence[Request]) -> None:
        """Asks all of these at once. Their replies are taken when they come."""
        # A text that cannot be sent is an error before anything is.
        text = "".join(request.sent for request in requests).encode("utf-8", "surrogateescape")
        if not self.is_own:
            raise OtherProcess(self._owner)
        with self._alone(self._deadline()):
            if not self._in_step:
                self.stop()
            if self._over is None and self._input.closed:
                # Nothing more can be asked, and what still comes answers nothing of this.
                self._read_out(self._deadline(PATIENCE))
                self._finish()
            if self._over is not None:
                raise self.ended()
            with self._a_step():
                closings = list(self._closings())
                text = "".join(request.sent for request in closings).encode() + text
                if LOG.isEnabledFor(logging.DEBUG):
                    for line in text.decode("utf-8", "surrogateescape").splitlines():
                        LOG.debug("to %d: %s", self._process.pid, line)
                self._unsent += text
                self._awaited += [*closings, *requests]
                self._watch(self._input, selectors.EVENT_WRITE)

    def limit(self, timeout: float | None) -> None:
        """From now on each wait takes at most so many seconds."""
        self._timeout = timeout

    def wait_for(self, request: Request) -> None:
        """Waits for the reply to something that was sent."""
        if self._over is not None and not request.is_answered:
            raise self.ended()
        self._finish_reply(request)

    def catch_up(self) -> None:
        """Waits for what an interrupt left to be answered."""
        if not self.is_own:
            raise OtherProcess(self._owner)
        with self._alone(self._deadline()):
            last = self._awaited[-1] if self._awaited and self._in_step and self._over is None else None
        if last is not None:
            self._finish_reply(last)

    def is_behind(self) -> bool:
        """Whether something that was asked is still to be answered, once all that has come by now is read. It waits for nothing."""
        if not self.is_own:
            return False
        if not self._lock.acquire(blocking=False):
            return True
        try:
            while self._awaited and self._in_step and self._over is None and not self._is_out():
                if not self._turn(0):
                    return True
            return False
        finally:
            self._lock.release()

    def close(self) -> int:
        """Ends the script, waits for what is still to be answered and for the end, and gives the exit status.

        If that takes too long, it ends the program at once: nobody waits for an answer any more.
        """
        if self._over is None and self.is_own:
            deadline = self._deadline(PATIENCE)
            try:
                with self._alone(deadline):
                    if not self._in_step:
                        self.stop()
                        return self._process.returncode
                    self._read_out(deadline)
                    self._finish("the service was closed")
            except TimedOut as late:
                LOG.warning("%s was still at work %g seconds after it was closed, and was stopped", shlex.join(self._words), late.seconds)
                self.stop()
                return 0
        return self._process.returncode or 0

    def stop(self) -> None:
        """Ends it at once, whatever it does, and whichever thread waits for it."""
        if self._over is None and self.is_own:
            _kill(self._process)
            with self._lock:
                self._finish()

    def ended(self) -> Ended:
        """How it ended, as an error of its own for each who asks."""
        assert self._over is not None
        return Ended(*self._over.args)

    def _deadline(self, longest: float = math.inf) -> float:
        return time.monotonic() + (longest if self._timeout is None else self._timeout)

    @contextlib.contextmanager
    def _alone(self, deadline: float) -> Iterator[None]:
        """Holds the lock. Raises `TimedOut` if another thread does until the deadline."""
        left = deadline - time.monotonic()
        if not self._lock.acquire(timeout=max(0.0, left) if left < threading.TIMEOUT_MAX else -1):
            raise TimedOut(self._timeout or PATIENCE)
        try:
            yield
        finally:
            self._lock.release()

    def _read_out(self, deadline: float) -> None:
        """Writes what is to be written, hangs up, and reads to the end. Raises `TimedOut` if that does not come until the deadline."""
        while not self._is_out():
            if not self._unsent and not self._input.closed:
                self._hang_up()
            if time.monotonic() >= deadline:
                raise TimedOut(self._timeout or PATIENCE)
            self._turn(max(0.0, min(deadline - time.monotonic(), LONGEST_WAIT)))

    def _finish_reply(self, request: Request) -> None:
        for _ in self._run_until(request):
            pass

    def _run_until(self, request: Request) -> Iterator[None]:
        """Writes and reads until the request is answered, and all before it, and comes back each time that something was."""
        deadline = self._deadline()
        while not request.is_answered:
            with self._alone(deadline):
                # Another thread may have read it meanwhile.
                if not request.is_answered:
                    self._turn_by(deadline)
            yield

    def _turn_by(self, deadline: float) -> None:
        """A turn of a program that has not ended. Raises `TimedOut` if nothing came until the deadline."""
        if self._over is not None or self._is_out():
            self._finish()
            raise self.ended()
        if not self._turn(max(0.0, min(deadline - time.monotonic(), LONGEST_WAIT))) and time.monotonic() >= deadline:
            raise TimedOut(self._timeout or PATIENCE)

    def _turn(self, seconds: float = LONGEST_WAIT) -> bool:
        """Waits until some end is ready, and serves those that are: False if none was in time. An interrupt comes while it waits."""
        ready = [key.fileobj for key, _ in self._selector.select(seconds)]
        with self._a_step():
            if self._input in ready:
                self._write()
            if self._output in ready:
                self._read()
            if self._errors in ready:
                self._hear()
        return bool(ready)

    @contextlib.contextmanager
    def _a_step(self) -> Iterator[None]:
        """What is done whole. If an error ends it all the same, it is not known what was read and what was not."""
        with interrupts_held_back():
            self._in_step = False
            yield
            self._in_step = True

    def _write(self) -> None:
        try:
            written = os.write(self._input.fileno(), bytes(self._unsent[:PIECE]))
        except BlockingIOError:
            return
        except BrokenPipeError:
            self._hang_up()
            return
        del self._unsent[:written]
        if not self._unsent:
            self._ignore(self._input)

    def _read(self) -> None:
        came = os.read(self._output.fileno(), PIECE)
        self._begun += came
        self._hand_whole()
        if not came:
            self._ignore(self._output)
            self._last_line = self._text(self._begun) or self._last_line

    def _hand_whole(self) -> None:
        """Hands on the whole lines that came."""
        whole, feed, rest = self._begun.rpartition(b"\n")
        if not feed:
            return
        self._begun = rest
        text = self._text(whole)
        self._last_line = text.rpartition("\n")[2]
        if LOG.isEnabledFor(logging.DEBUG):
            for line in text.split("\n"):
                LOG.debug("from %d: %s", self._process.pid, line)
        text += "\n"
        while text and self._awaited and self._awaited[0].takes_text:
            text = self._awaited[0].take_text(text)
            if self._awaited[0].is_answered:
                self._awaited.popleft()
        if text:
            self._hand(text.removesuffix("\n").split("\n"))

    def _hand(self, lines: Sequence[str]) -> None:
        """Gives each line to the request that it answers. If it answers none, the program ends, or is none that answers scripts."""
        awaited, place = self._awaited, 0
        try:
            while awaited and place < len(lines):
                place = awaited[0].take_from(lines, place)
                if awaited[0].is_answered:
                    awaited.popleft()
            if place < len(lines) and not self._input.closed:
                raise NotAReply(lines[place])
        except NotAReply as stray:
            line = str(stray)
            # With such a line the program itself says why it ends.
            if not line.startswith("error: "):
                asked = awaited[0].line if awaited else ""
                self._stray = line, f"unexpected reply `{line}`" + (f" to `{asked}`" if asked else "")
            self._give_up()
            self._hang_up()

    def _hear(self) -> None:
        """What is said on standard error is passed on, if it is taken, and the last line kept."""
        came = os.read(self._errors.fileno(), PIECE)
        if not came:
            self._ignore(self._errors)
            return
        text = self._text(came)
        with contextlib.suppress(OSError):
            print(text, end="", file=sys.stderr, flush=True)
        self._said = (self._said + text)[-SAID:]

    def _hang_up(self) -> None:
        """No more is written. The program sees the end of its script."""
        self._unsent.clear()
        self._ignore(self._input)
        self._input.close()

    def _is_out(self) -> bool:
        return self._output not in self._watched

    def _watch(self, end: IO[bytes], event: int) -> None:
        if end not in self._watched:
            self._watched.add(end)
            self._selector.register(end, event)

    def _ignore(self, end: IO[bytes]) -> None:
        if end in self._watched:
            self._watched.remove(end)
            self._selector.unregister(end)

    def _give_up(self) -> None:
        """Nothing more is awaited."""
        self.unanswered += self._awaited
        self._awaited.clear()

    def _finish(self, hint: str = "") -> None:
        """Waits for the end, and lets go of all that was held."""
        if self._over is not None:
            return
        self._hang_up()
        try:
            self._process.wait(PATIENCE)
        except subprocess.TimeoutExpired:
            _kill(self._process)
            self._process.wait()
        with interrupts_held_back():
            if self._errors in self._watched:
                with contextlib.suppress(BlockingIOError):
                    self._hear()
            self._selector.close()
            self._output.close()
            self._errors.close()
            self._give_up()
            self._finalizer.detach()
            last_line, said = self._stray if self._stray[1] else (self._last_line, self._said.strip().split("\n")[-1])
            if not self._in_step:
                said = "stopped, since an error came in the midst of a reply"
            if self._process.returncode < 0 and self._in_step:
                hint = hint or "Service.restart() starts it again with all cases"
            self._over = Ended(self._words, self._process.returncode, last_line, said, hint)

    @staticmethod
    def _text(data: bytes | bytearray) -> str:
        return data.decode("utf-8", "surrogateescape")
