"""A program that answers scripts, badly: as its first word says."""

import json
import os
import signal
import sys
import time

# What lets a reply go on that was held back.
GO_ON = signal.SIGUSR1


def say(text, end="\n"):
    sys.stdout.write(text + end)
    sys.stdout.flush()


def interrupt_the_asker():
    """Whoever asked waits for the reply by now, and for those to the lines after it. The interrupt comes before what is said next."""
    time.sleep(0.1)
    os.kill(os.getppid(), signal.SIGINT)
    time.sleep(0.2)


def lists():
    """Sessions over one wire and nine parts. Each part alone explains whatever is seen. `interrupt` interrupts whoever asks it."""
    say("ready 9 1")
    points = {}
    for line in sys.stdin:
        command, name, *words = line.split() + [""]
        if command == "open":
            say(f"{name} error 7 open already" if name in points else f"{name} open")
            points.setdefault(name, 0)
        elif command == "interrupt":
            interrupt_the_asker()
            say(f"{name} end")
        elif command not in ("close", "see", "after", "list"):
            say("error 1 unknown command")
        elif name not in points:
            say(f"{name} error 6 no session")
        elif command == "close":
            del points[name]
            say(f"{name} closed")
        elif command == "list":
            for number in range(points[name] + 1, points[name] + 1 + int(words[0])):
                say(f"{name} diag p{number}" if number <= 9 else f"{name} end")
                if number > 9:
                    break
            points[name] = min(9, points[name] + int(words[0]))
        else:
            points[name] = int(words[0].removeprefix("p")) if command == "after" else 0
            say(f"{name} ok")
    return 0


def misbehave(how, session):
    """What it does at its third line, before it answers that."""
    if how == "dies":
        say("error: read")
        sys.exit(4)
    if how == "breaks":
        say(f"{session} o", end="")
        os.kill(os.getpid(), signal.SIGKILL)
    if how.startswith("strays"):
        say("something else")
    if how == "strays slowly":
        interrupt_the_asker()


def answers(how, canned):
    """Answers each line, as in `canned` or else as if it were carried out. Gives the exit status."""
    say("ready 1 1")
    for number, line in enumerate(sys.stdin):
        line = line.rstrip("\n")
        command, session, *_ = line.split() + ["", ""]
        if number == 2:
            misbehave(how, session)
        if how == "dozes" and command == "min":
            # Longer than anyone waits.
            time.sleep(900)
        if how == "sleeps" and command == "min":
            say(f"{session} ", end="")
            signal.sigwait({GO_ON})
            say("min 0")
            continue
        say(canned.get(line, f"{session} {({'open': 'open', 'close': 'closed'}).get(command, 'ok')}"))
    return 7 if how == "ends badly" else 0


def main():
    how, *words = sys.argv[1:]
    signal.pthread_sigmask(signal.SIG_BLOCK, {GO_ON})
    if how == "lists":
        return lists()
    if how == "greets":
        say("hello")
        return 0
    if how == "compiles" and "--search" not in words:
        # Longer than anyone waits.
        time.sleep(900)
    if how == "refuses" or how == "refuses a graph" and "--search" not in words:
        # The last line and the status are given.
        say(words[0])
        return int(words[1])
    if how == "floods":
        # More than a pipe holds, on the side that nobody waits for.
        sys.stderr.write("noise\n" * 50_000)
        sys.stderr.flush()
    return answers(how, json.loads(words[0]) if how == "tells" else {})


sys.exit(main())
