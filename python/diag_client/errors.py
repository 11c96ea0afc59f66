"""What can go wrong between a script and the program."""

from __future__ import annotations

import shlex
import signal

# So many characters of a text are shown.
LONGEST_SHOWN = 60
# What to do about a refusal, by its text.
CURES = {
    "open already": "close that session or drop it, or give no name",
    "full": "close a session or drop it",
    "no levels": "give Service(levels=C)",
    "no least": "give Service(least=True)",
    "no graph": "a search has none: give Service(engine='graph')",
}


class DiagError(Exception):
    """All errors of this client."""


def shown(text: str) -> str:
    """A text that somebody wrote, as an error shows it: the begin of a long one, and no sign that a terminal obeys.

    >>> shown("see\\tS \\x1b[2J=1"), shown("x" * 70)
    ('see S �[2J=1', 'xxxxxxxxxxxxxxxxxxxxxxxxxxxxxxxxxxxxxxxxxxxxxxxxxxxxxxxxxxxx...')
    """
    signs = ("\N{REPLACEMENT CHARACTER}" if not sign.isprintable() else sign for sign in text[:LONGEST_SHOWN].replace("\t", " "))
    return "".join(signs) + ("..." if len(text) > LONGEST_SHOWN else "")


def sentence(error: BaseException) -> str:
    """What an error says, without the number that the operating system gives it.

    >>> sentence(OSError(28, "No space left on device", "out.svg"))
    'out.svg: no space left on device'
    """
    if not isinstance(error, OSError) or not error.strerror:
        return str(error)
    told = error.strerror[:1].lower() + error.strerror[1:]
    return told if error.filename is None else f"{error.filename}: {told}"


class NotBuilt(DiagError):
    """There is no program to start. The text says what to do."""


class OtherProcess(DiagError):
    """The service belongs to the process that started it, and this one was forked from that. Nothing was asked."""

    def __init__(self, owner: int) -> None:
        super().__init__(owner)
        self.owner = owner

    def __str__(self) -> str:
        return f"this service belongs to process {self.owner}: start a Service in each process, or call restart() in this one"


class TimedOut(DiagError, TimeoutError):
    """No answer came within the `timeout` of the service. What was asked stays asked; `Service.restart` ends it."""

    def __init__(self, seconds: float) -> None:
        super().__init__(seconds)
        self.seconds = seconds

    def __str__(self) -> str:
        return f"no answer within {self.seconds:g} seconds; Service.restart() ends what is still at work"


class Refused(DiagError):
    """A line asked for something that cannot be done, and changed nothing.

    `number` and `text` are the program's own, as in docs/SCRIPT.md; `line` is the line that was refused. `hint` says what to do, if that
    is clear.
    """

    def __init__(self, number: int, text: str, line: str) -> None:
        super().__init__(number, text, line)
        self.number = number
        self.text = text
        self.line = line

    @property
    def hint(self) -> str:
        """What to do."""
        return CURES.get(self.text, "")

    def __str__(self) -> str:
        return f"{self.text} (error {self.number}): {shown(self.line)}" + (f"; {self.hint}" if self.hint else "")


class NoGraph(Refused):
    """What was asked for is a graph, and a search has none."""


class BadScript(DiagError, ValueError):
    """A script says what no case can be. The text has the number of the line; nothing is taken from the script."""


class Changed(DiagError, RuntimeError):
    """A case was changed while it was listed."""

    def __init__(self, what: str) -> None:
        super().__init__(what)
        self.what = what

    def __str__(self) -> str:
        return f"the case of {self.what} was changed while it was listed: list it again"


class Inconsistent(DiagError):
    """No set of faulty parts explains what the session has seen and holds."""

    def __init__(self, session: str) -> None:
        super().__init__(session)
        self.session = session

    def __str__(self) -> str:
        return f"session {self.session}: no set of faulty parts explains what was seen and held"


class Ended(DiagError):
    """The program has ended, and answers no more.

    `status` is its exit status, negative if a signal ended it. `last_line` is the last line that it wrote, or the first that answered
    nothing; for most statuses it says why. `said` is the last line that it, or its launcher, wrote on standard error. `hint` says
    what to try. `words` started it.
    """

    def __init__(self, words: tuple[str, ...], status: int, last_line: str, said: str = "", hint: str = "") -> None:
        super().__init__(words, status, last_line, said, hint)
        self.words = words
        self.status = status
        self.last_line = last_line
        self.said = said
        self.hint = hint

    def __str__(self) -> str:
        how = f"status {self.status}"
        if self.status < 0:
            how = f"signal {-self.status} ({signal.strsignal(-self.status)})"
        # A program that was closed or killed did not say why.
        last_line = self.last_line if self.status > 0 else ""
        texts = [self.said] if last_line in self.said else [last_line, self.said]
        why = "".join(f": {text}" for text in texts if text)
        return f"`{shlex.join(self.words)}` ended with {how}{why}" + (f"; {self.hint}" if self.hint else "")
