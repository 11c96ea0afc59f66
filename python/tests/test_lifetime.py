"""How a program is left: by an interrupt, by an error, by dropping its service, by a fork; and how it is started again."""

import contextlib
import gc
import io
import itertools
import logging
import os
import pathlib
import signal
import subprocess
import sys
import tempfile
import unittest
import warnings
from unittest import mock

from support import C17, SOON, TOP, interrupt_at, kill, needs_program, stand_in, wait_until

from diag_client import Ended, Minimum, OtherProcess, Service, TimedOut, child
from diag_client.progress import Progress


def served(how, **options):
    return Service("any.bench", program=stand_in(how), **options)


def is_alive(process):
    try:
        os.kill(process, 0)
    except ProcessLookupError:
        return False
    return True


@contextlib.contextmanager
def warnings_of(device):
    """What is warned of that names a device; what else is dropped meanwhile is not from here."""
    found = []
    gc.collect()
    with warnings.catch_warnings(record=True) as warned:
        warnings.simplefilter("always")
        yield found
        gc.collect()
    found += [row.category for row in warned if device in str(row.message)]


class Dropped(unittest.TestCase):
    """A service that nobody closes ends with its last reference, and with the interpreter."""

    def test_last_reference(self):
        service = served("is good")
        process = service._child._process.pid
        with warnings_of("any.bench") as warned:
            del service
        self.assertFalse(is_alive(process))
        self.assertEqual(warned, [ResourceWarning])

    def test_with_something_awaited(self):
        service = served("dozes")
        process = service._child._process.pid
        session = service.session("S")
        service.send([session._change("see", "a=1"), session.request("min")])
        with warnings_of("any.bench"):
            del service, session
        self.assertFalse(is_alive(process))

    def test_interpreter_ends(self):
        script = "import diag_client, sys; s = diag_client.Service('any.bench', program=sys.argv[1:]); print(s._child._process.pid)"
        environment = {**os.environ, "PYTHONPATH": str(TOP / "python")}
        words = [sys.executable, "-c", script, *stand_in("is good")]
        done = subprocess.run(words, env=environment, capture_output=True, text=True, check=True)
        self.assertFalse(is_alive(int(done.stdout)))

    def test_closed_ones_warn_of_nothing(self):
        with warnings_of("any.bench") as warned:
            service = served("is good")
            service.close()
            del service
        self.assertEqual(warned, [])


class Left(unittest.TestCase):
    """The end of `with` waits for nothing once there is an error, and the error stays what it is."""

    def was_killed(self, service):
        """It did not end by itself."""
        return service._child._process.returncode == -signal.SIGKILL

    def test_interrupt(self):
        with self.assertRaises(KeyboardInterrupt), served("dozes") as service, service.session("S") as session:
            interrupt_at(service, "min S")
            session.minimum()
        self.assertTrue(self.was_killed(service))

    def test_interrupt_within_a_step(self):
        """The program is stopped once something is sent to it, and that is no error of its own."""
        with self.assertRaises(KeyboardInterrupt), served("is good") as service, service.session("S") as session:
            request = session.request("see", "a=1")
            request.take_from = mock.Mock(side_effect=KeyboardInterrupt)
            service.carry_out([request])
        self.assertTrue(self.was_killed(service))

    def test_interrupt_in_a_copy(self):
        with self.assertRaises(KeyboardInterrupt), served("dozes") as service, service.session("S") as session:
            with session.copy("T") as other:
                interrupt_at(service, "min T")
                other.minimum()
        self.assertTrue(self.was_killed(service))

    def test_own_error(self):
        with self.assertRaises(KeyError), served("dies") as service, service.session("S") as session:
            with contextlib.suppress(Ended):
                session.see(a=0, b=1)
            raise KeyError

    def test_own_error_after_an_end_that_nobody_saw(self):
        with self.assertRaises(KeyError), served("is good") as service, service.session("S"):
            kill(service)
            raise KeyError

    def test_own_error_while_it_runs(self):
        """The session is closed all the same."""
        with Service("any.bench", program=stand_in("lists")) as service:
            with self.assertRaises(KeyError), service.session("S"):
                raise KeyError
            service.session("S").close()


@unittest.skipUnless(hasattr(os, "fork"), "there is no fork")
class Forked(unittest.TestCase):
    """After a fork the other process gets an error of its own and changes nothing."""

    def in_child(self, call):
        """What the call raises in a forked process, by its name."""
        reads, writes = os.pipe()
        process = os.fork()
        if process == 0:
            try:
                call()
                told = "nothing"
            except BaseException as error:
                told = f"{type(error).__name__} {error}"
            gc.collect()
            os.write(writes, told.encode())
            os._exit(0)
        os.close(writes)
        with open(reads) as told:
            text = told.read()
        os.waitpid(process, 0)
        return text

    def test_asks(self):
        with served("is good") as service, service.session("S") as session:
            session.see(a=0)
            for call in (lambda: session.see(b=1), lambda: service.session("T"), session.minimum, service.catch_up):
                self.assertEqual(self.in_child(call), f"OtherProcess {OtherProcess(os.getpid())}")
            for call in (session.close, service.close, service.stop, session.abandon, lambda: service.__exit__(KeyError)):
                self.assertEqual(self.in_child(call), "nothing")
            self.assertEqual(dict(session.seen), {"a": 0})
            session.see(c=1)

    def test_restart(self):
        """It gives the other process a program of its own."""
        with served("is good") as service, service.session("S") as session:

            def ask():
                service.restart()
                session.see(b=1)
                service.close()

            self.assertEqual(self.in_child(ask), "nothing")
            self.assertEqual(dict(session.seen), {})
            session.see(a=0)

    def test_last_reference(self):
        services = [served("is good")]
        self.assertEqual(self.in_child(services.clear), "nothing")
        with services[0] as service, service.session("S") as session:
            session.see(a=0)


@needs_program
class Restarted(unittest.TestCase):
    """The program is started again, and knows what each session has seen and holds."""

    def setUp(self):
        self.service = self.enterContext(Service(C17))
        self.session = self.enterContext(self.service.session(1))
        self.session.see({"1": 0, "2": 0, "3": 0, "6": 0, "7": 0, "22": 1, "23": 0})
        self.session.hold({"10": "ok"})

    def check(self):
        self.assertEqual(self.session.minimum(), Minimum(1, ("22",)))
        self.assertEqual((len(self.session.seen), dict(self.session.held)), (7, {"10": "ok"}))

    def test_case(self):
        other = self.service.session("gone")
        other.close()
        self.service.restart()
        self.check()
        self.service.session("gone").close()

    def test_after_its_end(self):
        self.service.stop()
        with self.assertRaises(Ended):
            self.session.minimum()
        self.service.restart()
        self.check()

    def test_what_was_not_answered(self):
        """A reading that was sent is not lost; a question is."""
        self.service._child._process.send_signal(signal.SIGSTOP)
        self.service.send([self.session.request("list", "9"), self.session._change("unhold", "10")])
        self.service.restart()
        self.assertEqual(self.session.minimum(), Minimum(1, ("10",)))

    def test_interrupted(self):
        """So it may be tried once more."""
        with mock.patch.object(child.Child, "ask", side_effect=KeyboardInterrupt), self.assertRaises(KeyboardInterrupt):
            self.service.restart()
        self.assertFalse(self.service.is_running)
        self.service.restart()
        self.check()


class Waits(unittest.TestCase):
    """What is known while an answer is awaited."""

    def test_timeout(self):
        with self.assertRaises(TimedOut), served("dozes", timeout=SOON) as service, service.session("S") as session:
            # The start took longer than this, perhaps.
            service._child._timeout = 0.2
            session.minimum()
        self.assertIsInstance(TimedOut(1), TimeoutError)

    def test_timeout_of_what_is_printed_as_it_comes(self):
        service = served("dozes")
        self.addCleanup(service.stop)
        request = service.session("S").requests([["min"]])
        service._child._timeout = 0.2
        with self.assertRaises(TimedOut):
            # It comes back now and then without an answer, so that this ends in any case.
            list(itertools.islice(service.follow(request), 10))

    def test_timeout_leaves_it_in_step(self):
        with served("sleeps") as service, service.session("S") as session:
            service._child._timeout = 0.2
            with self.assertRaises(TimedOut):
                session.minimum()
            self.assertTrue(service.is_behind)
            service._child._timeout = SOON
            service._child._process.send_signal(signal.SIGUSR1)
            session.see(a=1)
            self.assertFalse(service.is_behind)

    def test_log(self):
        with self.assertLogs("diag_client", logging.DEBUG) as logged, served("is good") as service, service.session("S") as session:
            session.see(a=1)
        texts = [row.split(": ", 1)[1] for row in logged.output if "a=1" in row or "ok" in row]
        self.assertEqual(texts, ["see S a=1", "S ok"])

    def test_stray_reply(self):
        with self.assertRaises(Ended) as caught, served("strays") as service, service.session("S") as session:
            session.see(a=0, b=1)
        self.assertIn("ended with status 0: unexpected reply `something else` to `see S b=1`", str(caught.exception))

    def test_progress(self):
        class Terminal(io.StringIO):
            def isatty(self):
                return True

        stream = Terminal()
        with mock.patch("diag_client.progress.PAUSE", 0.05), Progress("counting", stream):
            wait_until(stream.getvalue)
        self.assertRegex(stream.getvalue(), "counting: [0-9]+ s")
        self.assertTrue(stream.getvalue().endswith("\r\x1b[K"))
        with Progress("counting", io.StringIO()) as quiet:
            self.assertIsNone(quiet._thread)


class Options(unittest.TestCase):
    """Wrong options are found before a program is started, and a refusal says what to do."""

    def test_wrong(self):
        for error, options in (
            (TypeError, {"narrow": 1}), (TypeError, {"least": 1}), (TypeError, {"levels": True}), (TypeError, {"budget": 1e6}),
            (TypeError, {"session": 3}), (TypeError, {"sessions": "3"}), (ValueError, {"budget": 0}), (ValueError, {"frames": 65}),
            (ValueError, {"sessions": 1025}), (ValueError, {"levels": -1}), (ValueError, {"file": "any"}), (ValueError, {"file": ".bench"}),
            (ValueError, {"file": "any.dev", "frames": 2}), (ValueError, {"file": "any.nnf"}), (ValueError, {"health": 3}),
            (ValueError, {"file": "any.nnf", "health": 3, "levels": 2}), (ValueError, {"file": "any\udcff.bench"}),
            (ValueError, {"engine": "fast"}), (ValueError, {"engine": None}), (ValueError, {"engine": "search", "least": True}),
            (ValueError, {"engine": "search", "file": "any.nnf", "health": 3}), (TypeError, {"search": True}),
        ):
            with self.subTest(options), mock.patch("diag_client.service.Child", side_effect=AssertionError), self.assertRaises(error):
                Service(**{"file": "any.bench", "program": "diag", **options})

    def refusal(self, line, status, **options):
        given = {"file": "any.bench", "program": stand_in("refuses", line, str(status)), **options}
        with self.assertRaises(Ended) as caught:
            Service(**given)
        self.assertEqual((caught.exception.status, caught.exception.last_line), (status, line))
        return str(caught.exception)

    def test_hints(self):
        self.assertIn("; try budget=8388608, then engine='search'", self.refusal("error: sum above 2097152", 3, engine="graph"))
        self.assertIn("; try narrow=True, then budget=8388608", self.refusal("error: sum above 2097152", 3, narrow=False))
        self.assertIn("; try engine='search'", self.refusal("error: sum above 8388608", 3, budget=8388608))
        self.assertIn("; try a smaller levels=C", self.refusal("error: bits 3 above 2", 1, engine="graph"))
        self.assertIn("ended with status 1: error: clauses 262145 above 262144", self.refusal("error: clauses 262145 above 262144", 1))
        self.assertIn("give frames=N", self.refusal("error: line 9: fault 5 sequential", 1))

    def test_line_with_a_fault(self):
        with self.temporary(b"y = AND(a\n") as file:
            said = self.refusal("error: line 1: fault 1 line", 1, file=file)
            self.assertTrue(said.endswith("; line 1, column 10: the end of `y = AND(a`"), said)

    def test_closed(self):
        """What was last answered is not why."""
        service = served("lists")
        service.session("S")
        service.close()
        with self.assertRaises(Ended) as caught:
            service.session()
        self.assertRegex(str(caught.exception), "ended with status 0; the service was closed$")

    @contextlib.contextmanager
    def temporary(self, data):
        with tempfile.TemporaryDirectory() as folder:
            file = pathlib.Path(folder, "marked.bench")
            file.write_bytes(data)
            yield file

    def test_missing_file(self):
        with self.assertRaises(FileNotFoundError):
            Service("nowhere.bench", program=stand_in("refuses", "error: read", "4"))
        with self.assertRaises(IsADirectoryError), self.temporary(b"") as file:
            file.unlink()
            file.mkdir()
            Service(file, program=stand_in("refuses", "error: read", "4"))

    def test_words_that_are_paths(self):
        told = str(Ended((str(pathlib.Path("a b")), "serve"), 3, ""))
        self.assertIn("`'a b' serve`", told)
        with self.assertRaises(Ended) as caught:
            Service("any.bench", program=[pathlib.Path(sys.executable), *stand_in("refuses", "error: read", "5")[1:]])
        self.assertIn("status 5", str(caught.exception))

    def test_engines(self):
        """A device that is refused for its size, or not compiled soon, is searched, unless a graph is asked for."""
        wide, bits, slow = ("refuses a graph", "error: sum above 2097152", "3"), ("refuses a graph", "error: bits 3 above 2", "1"), ("compiles",)
        no_memory, fits = ("refuses a graph", "error: memory", "6"), ("is good",)
        for how, options, engine in (
            (fits, {}, "graph"), (fits, {"engine": "graph"}, "graph"), (fits, {"engine": "search"}, "search"), (wide, {}, "search"),
            (bits, {"levels": 3}, "search"), (no_memory, {}, "search"), (slow, {}, "search"), (slow, {"timeout": 60}, "search"),
            (wide, {"engine": "search", "budget": 1, "narrow": False}, "search"), (fits, {"least": True}, "graph"),
        ):
            with self.subTest((how, options)), mock.patch("diag_client.service.SOON", 0.5 if how == slow else SOON):
                with Service("any.bench", program=stand_in(*how), **options) as service, service.session("S") as session:
                    session.see(a=1)
                    service.restart()
                    self.assertEqual((service.engine, dict(session.seen)), (engine, {"a": 1}))
                    self.assertEqual([word in service._words for word in ("--search", "--narrow", "--budget")], [engine == "search", engine == "graph", False])
        for how, options in ((wide, {"engine": "graph"}), (wide, {"budget": 9}), (wide, {"narrow": False}), (bits, {"least": True})):
            with self.subTest((how, options)), self.assertRaises(Ended):
                Service("any.bench", program=stand_in(*how), **options)
        with self.assertRaises(TimedOut):
            Service("any.bench", program=stand_in("compiles"), engine="graph", timeout=0.5)

    def test_narrow_is_the_default(self):
        with served("is good", engine="graph") as service:
            self.assertIn("--narrow", service._words)
        with served("is good", narrow=False) as service:
            self.assertNotIn("--narrow", service._words)


if __name__ == "__main__":
    unittest.main()
