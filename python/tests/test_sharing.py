"""Sessions that are dropped, threads that share a service, and what a service does once nobody waits for it."""

import concurrent.futures
import copy
import gc
import inspect
import pickle
import signal
import threading
import unittest

from support import C17, SOON, kill, needs_program, stand_in, wait_until

from diag_client import Case, Changed, DiagError, Diagnosis, Ended, Inconsistent, Refused, Service, TimedOut
from diag_client.bench.shared import SharedService

ZERO = {"1": 0, "2": 0, "3": 0, "6": 0, "7": 0}
CASE = {**ZERO, "22": 1, "23": 0}


def served(how, **options):
    return Service("any.bench", program=stand_in(how), **options)


def wait_until_awaited(service):
    """Waits until another thread has written what it asks, and waits for the reply."""
    wait_until(lambda: service._child._awaited and not service._child._unsent)


@needs_program
class DroppedSessions(unittest.TestCase):
    """A session that nobody has any more is closed: there are more boards than sessions."""

    def test_loop(self):
        with Service(C17, sessions=3) as service:
            for _ in range(50):
                session = service.session()
                session.see(CASE)
                self.assertEqual([str(diagnosis) for diagnosis in session.diagnoses()], ["10", "22"])
            for _ in range(50):
                with service.session() as inner:
                    inner.see(CASE)
                    self.assertEqual(inner.minimum().cost, 1)

    def test_name(self):
        """It is free again once its session is closed or dropped, and a session that is at hand is not taken away."""
        with Service(C17) as service:
            session = service.session("S")
            session.see({"22": 1})
            with self.assertRaisesRegex(Refused, r"open already \(error 7\): open S; close that session or drop it, or give no name"):
                service.session("S")
            self.assertEqual(session.minimum().cost, 0)
            del session
            self.assertEqual(service.session("S").case, Case())
            session = service.session("S")
            session.close()
            del session
            with service.session("S") as session:
                session.see({"22": 1})
                # What was dropped before does not close this one.
                gc.collect()
                self.assertEqual(session.minimum().cost, 0)

    def test_restart(self):
        """A new program has none of those that were dropped."""
        with Service(C17, sessions=2) as service:
            kept = service.session("kept")
            kept.see(CASE)
            service.session("gone")
            service.restart()
            with service.session("gone") as session:
                self.assertEqual((session.minimum().cost, kept.minimum().cost), (0, 1))

    def test_after_the_end(self):
        service = Service(C17)
        session = service.session()
        service.close()
        del session, service
        gc.collect()


class Threads(unittest.TestCase):
    """Of several threads that share a service one asks at a time, and each gets the answers to its own questions."""

    def in_threads(self, ask, count=8):
        with concurrent.futures.ThreadPoolExecutor(count) as pool:
            return [done.result(SOON) for done in [pool.submit(ask, number) for number in range(count)]]

    def test_each_its_session(self):
        with served("lists") as service:

            def ask(number):
                found = []
                for _ in range(20):
                    with service.session() as session:
                        session.see(a=1)
                        found.append([str(diagnosis) for diagnosis in session.diagnoses(number + 1)])
                return found

            wanted = [f"p{number}" for number in range(1, 10)]
            self.assertEqual(self.in_threads(ask), [[wanted[: number + 1]] * 20 for number in range(8)])

    @needs_program
    def test_one_session(self):
        with Service(C17) as service, service.session() as session:
            session.see(CASE)
            found = self.in_threads(lambda _: [list(session.diagnoses()) for _ in range(20)])
        self.assertEqual(found, [[[Diagnosis(("10",)), Diagnosis(("22",))]] * 20] * 8)

    def test_one_waits_for_the_other(self):
        """It waits as long as a call may, and what the other asked is answered all the same."""
        with served("sleeps") as service, service.session("S") as session:
            service._child._timeout = SOON
            asking = threading.Thread(target=session.minimum)
            asking.start()
            wait_until_awaited(service)
            service._child._timeout = 0.3
            with self.assertRaises(TimedOut):
                session.see(a=1)
            service._child._timeout = SOON
            service._child._process.send_signal(signal.SIGUSR1)
            asking.join(SOON)
            session.see(b=1)
            self.assertEqual(session.seen["b"], 1)

    def test_stopped_by_another(self):
        """Whoever waits is told at once."""
        with served("dozes") as service, service.session("S") as session, concurrent.futures.ThreadPoolExecutor(1) as pool:
            asked = pool.submit(session.minimum)
            wait_until_awaited(service)
            service.stop()
            self.assertIsInstance(asked.exception(SOON), Ended)


class Closed(unittest.TestCase):
    """The end waits no longer than a call does."""

    def check(self, leave):
        for options in ({"timeout": SOON}, {}):
            with self.subTest(options):
                service = served("dozes", **options)
                self.addCleanup(service.stop)
                session = service.session("S")
                service.send([session.request("min")])
                service._child._timeout = 0.3
                with self.assertLogs("diag_client", "WARNING") as logged:
                    leave(service)
                self.assertRegex(logged.output[0], "was still at work 0.3 seconds after it was closed, and was stopped")
                self.assertEqual((service.is_running, service._child._process.returncode), (False, -signal.SIGKILL))

    def test_close(self):
        self.check(lambda service: service.close())

    def test_end_of_with(self):
        def leave(service):
            with service:
                pass

        self.check(leave)

    def test_stopped_program(self):
        service = served("is good", timeout=SOON)
        service._child._timeout = 0.3
        service._child._process.send_signal(signal.SIGSTOP)
        with self.assertLogs("diag_client", "WARNING"):
            service.close()
        self.assertFalse(service.is_running)

    def test_while_another_thread_waits(self):
        """The page ends too while it is at work."""
        service = SharedService("any.bench", program=stand_in("dozes"))
        session = service.session("S")
        with concurrent.futures.ThreadPoolExecutor(1) as pool:
            asked = pool.submit(session.minimum)
            wait_until_awaited(service)
            service._child._timeout = 0.3
            with self.assertLogs("diag_client", "WARNING"):
                service.close()
            self.assertIsInstance(asked.exception(SOON), Ended)

    def test_what_was_asked_is_answered(self):
        """If there is time for it."""
        with served("sleeps") as service:
            session = service.session("S")
            request = session.request("min")
            service.send([request])
            threading.Timer(0.5, service._child._process.send_signal, [signal.SIGUSR1]).start()
        self.assertEqual(request.lines[0], "S min 0")


class Told(unittest.TestCase):
    """An error says what to do."""

    def test_killed(self):
        with served("is good") as service, service.session("S") as session:
            kill(service)
            with self.assertRaises(Ended) as caught:
                session.see(a=0)
            self.assertEqual(caught.exception.hint, "Service.restart() starts it again with all cases")
            service.restart()
            session.see(a=0)

    def test_changed(self):
        with served("lists") as service, service.session("S") as session:
            listing = session.diagnoses()
            next(listing)
            session.see(a=1)
            with self.assertRaises(DiagError) as caught:
                next(listing)
            self.assertIsInstance(caught.exception, Changed)
            self.assertEqual(str(caught.exception), "the case of session S was changed while it was listed: list it again")

    def test_pickled(self):
        with served("lists") as service, service.session("S") as session:
            for take in (pickle.dumps, copy.copy, copy.deepcopy):
                with self.assertRaisesRegex(TypeError, r"session_from.*copy\(\)"):
                    take(session)
                with self.assertRaisesRegex(TypeError, "start one in each process"):
                    take(service)
            self.assertEqual(pickle.loads(pickle.dumps(session.case)), Case())

    @needs_program
    def test_impossible(self):
        """The session that was asked is named, and none that was opened for the answer."""
        with Service(C17) as service, service.session("mine") as session:
            session.see(CASE)
            session.hold(dict.fromkeys(service.parts, "ok"))
            with self.assertRaisesRegex(Inconsistent, "^session mine: no set"):
                session.best_probe()

    def test_timeout(self):
        for error, wrong in ((ValueError, 0), (ValueError, -1), (ValueError, float("nan")), (TypeError, "3"), (TypeError, True)):
            with self.subTest(wrong), self.assertRaisesRegex(error, "timeout is "):
                Service("any.bench", program="none", timeout=wrong)

    def test_misspelt(self):
        """A checker of types finds a misspelt option, since there are no others than those that are named."""
        kinds = {parameter.kind for parameter in inspect.signature(Service).parameters.values()}
        self.assertNotIn(inspect.Parameter.VAR_KEYWORD, kinds)


if __name__ == "__main__":
    unittest.main()
