"""Programs that end, stray, sleep or flood, and full pipes."""

import contextlib
import io
import json
import os
import signal
import threading
import unittest

from support import C17, EXAMPLES, interrupt_at, needs_program, stand_in

from diag_client import Ended, NotBuilt, Refused, Service
from diag_client.replies import Listing

RIPPLE = EXAMPLES / "ripple_64.bench"


def served(how):
    return Service("any.bench", program=stand_in(how))


def page_of(session):
    """A listing of one state."""
    return Listing(session.name, session._line("list", "1"), last="end", more="diag", most=1)


def pause_of(session):
    """A line for which the stand-in that lists interrupts us, and whose reply comes later."""
    return Listing(session.name, session._line("interrupt"), last="end")


def quietly():
    """What the program says on standard error is passed on, and not to be seen here."""
    return contextlib.redirect_stderr(io.StringIO())


class Ends(unittest.TestCase):
    """A program that ends before it answered: its status and its last line are told, then and at each later call."""

    def test_says_why(self):
        with self.assertRaises(Ended) as caught, served("dies") as service, service.session("S") as session:
            session.see(a=0, b=1, c=1)
        self.assertEqual((caught.exception.status, caught.exception.last_line), (4, "error: read"))
        self.assertIn("ended with status 4: error: read", str(caught.exception))

    def test_is_killed_within_a_line(self):
        with self.assertRaises(Ended) as caught, served("breaks") as service, service.session("S") as session:
            session.see(a=0, b=1, c=1)
        self.assertEqual((caught.exception.status, caught.exception.last_line), (-signal.SIGKILL, "S o"))
        self.assertIn("signal 9", str(caught.exception))

    def test_has_ended(self):
        service = served("dies")
        session = service.session("S")
        for _ in range(3):
            with self.assertRaises(Ended) as caught:
                session.see(a=0, b=1)
            self.assertEqual(caught.exception.status, 4)
            self.assertFalse(service.is_running)
        # What has ended is closed without a word.
        session.close()
        service.close()

    def test_answers_no_script(self):
        with self.assertRaises(Ended) as caught:
            served("greets")
        self.assertEqual(caught.exception.last_line, "hello")

    def test_ends_badly(self):
        service = served("ends badly")
        with self.assertRaises(Ended) as caught:
            service.close()
        self.assertEqual(caught.exception.status, 7)

    def test_the_error_within_with_is_the_one_told(self):
        with self.assertRaises(ZeroDivisionError), served("sleeps") as service, service.session("S"):
            raise ZeroDivisionError
        self.assertFalse(service.is_running)

    def test_is_not_there(self):
        with self.assertRaisesRegex(NotBuilt, "nowhere/diag"):
            Service(C17, program="nowhere/diag")

    def test_says_on_standard_error(self):
        with quietly() as heard, self.assertRaises(Ended) as caught:
            Service(C17, program=["sh", "-c", "echo the kit is not there >&2; exit 127"])
        self.assertEqual((caught.exception.status, caught.exception.said), (127, "the kit is not there"))
        self.assertEqual(heard.getvalue(), "the kit is not there\n")


class Pipes(unittest.TestCase):
    """No pipe is full while both sides wait."""

    def test_much_at_once(self):
        with served("is good") as service, service.session("S" * 64) as session:
            session.see({f"wire{number}": number % 2 for number in range(10_000)})
            self.assertEqual(len(session.seen), 10_000)

    def test_much_on_standard_error(self):
        with quietly(), served("floods") as service, service.session("S") as session:
            session.see(a=0)

    @needs_program
    def test_the_program_itself(self):
        with Service(C17) as service, service.session("S" * 64) as session:
            lines = [session._change("see", f"{wire}={number % 2}") for number in range(1000) for wire in service.wires]
            session.service.do(lines)
            self.assertEqual(len(lines), 11_000)
            self.assertEqual(set(session.seen.values()), {1})


class Interrupts(unittest.TestCase):
    """An interrupt leaves the client and the program in step."""

    def interrupted(self, ask):
        """A call that the program interrupts."""
        with self.assertRaises(KeyboardInterrupt):
            ask()

    def test_while_it_lists(self):
        """The page that was not waited for moves the program's point, and the next listing begins where it should all the same."""
        with served("lists") as service, service.session("S") as session:
            for begin in (lambda: session.see(a=1), lambda: None, lambda: session.after("p3")):
                begin()
                first = [str(diagnosis) for diagnosis in session.diagnoses(3)]
                self.interrupted(lambda: session.service.do([pause_of(session), *session.placing(("p7",)), page_of(session)]))
                self.assertEqual([str(diagnosis) for diagnosis in session.diagnoses(3)], first)
            self.assertEqual(first, ["p4", "p5", "p6"])

    def test_what_was_seen_stays(self):
        """A reading whose reply was not waited for is known to the next listing."""
        with served("lists") as service, service.session("S") as session, service.session("T") as other:
            self.interrupted(lambda: session.service.do([pause_of(other), session._change("see", "a=1")]))
            self.assertEqual([str(diagnosis) for diagnosis in session.diagnoses(1)], ["p1"])
            self.assertEqual(dict(session.seen), {"a": 1})

    def test_while_it_waits(self):
        with served("sleeps") as service, service.session("S") as session:
            interrupt_at(service, "min S")
            self.interrupted(session.minimum)
            # The reply that was not waited for comes first, and is none to this.
            service._child._process.send_signal(signal.SIGUSR1)
            session.see(a=1)
            service._child._process.send_signal(signal.SIGUSR1)
            self.assertEqual(session.minimum().cost, 0)
            self.assertEqual(dict(session.seen), {"a": 1})

    def test_while_it_opens_or_closes(self):
        """A session whose opening was not waited for is nobody's, and takes no place; one is closed again as often as one likes."""
        with served("lists") as service, service.session("S") as session:

            def opened():
                service._child.send([pause_of(session)])
                service.session("T")

            self.interrupted(opened)
            with service.session("T") as other:
                # A name that is taken is refused, and the session that has it stays.
                with self.assertRaises(Refused):
                    service.session("T")
                other.see(a=1)
            self.interrupted(lambda: session.service.do([pause_of(session), session._closing(), session.opening()]))
            session.close()
            session.close()
            self.assertFalse(session.is_open)

    def test_behind_a_stray_line(self):
        """What still comes of a program that strayed is no answer to what is asked then."""
        with served("strays slowly") as service, service.session("S") as session:
            self.interrupted(lambda: session.see(a=0, b=1, c=1))
            with self.assertRaises(Ended):
                session.see(d=1)
            self.assertNotIn("d", session.seen)
            service._child.stop()

    @needs_program
    def test_at_any_time(self):
        """Most of a long reply's time goes into reading it, and an interrupt comes then."""
        with Service(RIPPLE) as service, service.session() as session:
            nodes = session.graph().nodes
            for number in range(20):
                alarm = threading.Timer(0.003 * number, signal.pthread_kill, [threading.get_ident(), signal.SIGINT])
                with self.assertRaises(KeyboardInterrupt):
                    alarm.start()
                    while True:
                        session.graph()
                self.assertEqual((session.minimum().cost, session.graph().nodes), (0, nodes))

    def test_within_a_step(self):
        """If it cannot be known how far a reply was read, the program is stopped and the error says so."""
        with served("is good") as service, service.session("S") as session:
            request = session._change("see", "a=1")
            request.take_from = lambda *_: (_ for _ in ()).throw(KeyboardInterrupt())
            with self.assertRaises(KeyboardInterrupt):
                session.service.do([request])
            with self.assertRaisesRegex(Ended, "in the midst of a reply"):
                session.see(a=1)

    def test_at_the_terminal_is_not_for_the_program(self):
        """An interrupt at the terminal goes to all of a group of processes."""
        with served("is good") as service:
            self.assertNotEqual(os.getpgid(service._child._process.pid), os.getpgrp())


class InOnePiece(unittest.TestCase):
    """Readings go out in one piece, and the replies are known beforehand. Of those that are others each line counts."""

    def test_all_are_taken(self):
        seen = {f"w{number}": number % 2 for number in range(20_000)}
        with served("is good") as service, service.session("S") as session:
            session.see(seen)
            self.assertEqual((dict(session.seen), session.changes), (seen, len(seen)))

    def test_some_are_refused(self):
        canned = {"see S b=1": "S error 9 no wire", "see S c=2": "error 3 wrong word"}
        with Service("any.bench", program=[*stand_in("tells"), json.dumps(canned)]) as service, service.session("S") as session:
            with self.assertRaises(Refused) as caught:
                session.see(a=True, b=1, c=2, d=0)
            self.assertEqual((caught.exception.number, caught.exception.line), (9, "see S b=1"))
            self.assertEqual((dict(session.seen), session.changes), ({"a": 1, "d": 0}, 2))

    def test_it_ends_among_them(self):
        service = served("dies")
        session = service.session("S")
        with self.assertRaises(Ended):
            session.see(a=0, b=1, c=1)
        self.assertEqual(dict(session.seen), {"a": 0})


class Closed(unittest.TestCase):
    """A session that was closed stays so, and one that is opened again begins anew."""

    def test_asked(self):
        with served("lists") as service, service.session("S") as session:
            session.see(a=1)
            session.close()
            for _ in range(2):
                with self.assertRaises(Refused) as caught:
                    list(session.diagnoses(2))
                self.assertEqual((caught.exception.number, caught.exception.line), (6, "list S 2"))

    def test_opened_again(self):
        with served("lists") as service, service.session("S") as session:
            session.after("p5")
            session.close()
            session.open()
            self.assertEqual([str(diagnosis) for diagnosis in session.diagnoses(1)], ["p1"])

    def test_within_a_listing(self):
        with served("lists") as service, service.session("S") as session:
            rows = session.diagnoses()
            next(rows)
            session.close()
            session.open()
            with self.assertRaises(RuntimeError):
                list(rows)

    def test_a_name_like_a_refusal(self):
        with served("lists") as service, service.session("error") as session:
            with self.assertRaises(Refused) as caught:
                session.ask("dance")
            self.assertEqual(caught.exception.number, 1)
            self.assertEqual(len(list(session.diagnoses(2))), 2)

    def test_the_line_is_told(self):
        with served("lists") as service, service.session("S") as session, self.assertRaises(Refused) as caught:
            session.ask("dance")
        self.assertEqual((caught.exception.line, str(caught.exception)), ("dance S", "unknown command (error 1): dance S"))


if __name__ == "__main__":
    unittest.main()
