"""Sessions over the built program. What commands and refusals are called is taken from the program's own replies."""

import io
import json
import os
import pathlib
import re
import resource
import tempfile
import threading
import unittest
from unittest import mock

from support import C17, EXAMPLES, needs_program, replies, stand_in

from diag_client import (
    Blame, Diagnosis, Ended, Inconsistent, Level, Minimum, NoGraph, NotBuilt, Probe, Refused, Service, Verdict, find_program, program,
)
from diag_client.case import SESSION_NAME

ZERO = {"1": 0, "2": 0, "3": 0, "6": 0, "7": 0}
CASE = {**ZERO, "22": 1, "23": 0}


@needs_program
class Readme(unittest.TestCase):
    """The case of the README over C17, line by line as its stored replies have it."""

    def test_case(self):
        told = iter((EXAMPLES / "c17.expected").read_text().splitlines())
        self.assertEqual(next(told), "ready 6 11")
        with Service(C17) as served, served.session("S") as session:
            self.assertEqual((served.part_count, served.wire_count), (6, 11))
            session.see(CASE)
            least = session.minimum()
            self.assertEqual(f"S min {least.cost} {' '.join(least.faulty)}", self.skip_to(told, "S min"))
            listed = [f"S diag {diagnosis}" for diagnosis in session.diagnoses(9)]
            self.assertEqual(listed, [next(told), next(told)])
            self.assertEqual(next(told), "S end")
            probe = session.probe("10")
            self.assertEqual(f"S probe {probe.wire} {probe.if_zero} {probe.if_one}", next(told))
            for row in session.blame():
                self.assertEqual(f"S blame {row.part} {row.verdict}", next(told))
            session.hold({"10": "ok"})
            self.assertEqual(f"S min {session.minimum().cost} {' '.join(session.minimum().faulty)}", self.skip_to(told, "S min"))

    @staticmethod
    def skip_to(lines, begin):
        return next(line for line in lines if line.startswith(begin))


@needs_program
class Answers(unittest.TestCase):
    """Each answer is what the program prints."""

    def setUp(self):
        self.service = self.enterContext(Service(C17, engine="graph"))
        self.session = self.enterContext(self.service.session("S"))

    def test_answers(self):
        self.session.see(CASE)
        self.assertEqual(self.session.minimum(), Minimum(1, ("10",)))
        self.assertEqual([diagnosis.faulty for diagnosis in self.session.diagnoses()], [("10",), ("22",)])
        self.assertEqual(self.session.probe("16"), Probe("16", 2, 1))
        self.assertEqual(self.session.probe("22"), Probe("22", None, 1))
        told = [" ".join(["S", "probe", row.wire, str(row.if_zero), str(row.if_one)]) for row in self.session.probes()] + ["S end"]
        self.assertEqual(told, replies(["open S", *(f"see S {wire}={bit}" for wire, bit in CASE.items()), "probes S"])[-5:])
        self.assertIn(Blame("22", Verdict.SOMETIMES), self.session.blame())

    def test_names(self):
        self.assertEqual(self.service.parts, ("10", "11", "16", "19", "22", "23"))
        self.assertEqual(self.service.wires, ("1", "10", "11", "16", "19", "2", "22", "23", "3", "6", "7"))

    def test_taken_back(self):
        self.session.see(CASE)
        self.session.hold({"10": "ok", "22": "ok"})
        self.assertEqual(self.session.minimum(), Minimum(2, ("16", "23")))
        self.session.unhold("10")
        self.session.unsee("22", "23")
        self.assertEqual(self.session.minimum(), Minimum(0, ()))
        self.assertEqual((dict(self.session.seen), dict(self.session.held)), (ZERO, {"22": "ok"}))

    def test_inconsistent(self):
        self.session.see(CASE)
        self.session.hold({"10": "ok", "22": "ok", "23": "ok"})
        for ask in (
            self.session.minimum, self.session.probes, self.session.blame, self.session.best_probe, lambda: next(self.session.diagnoses()),
            lambda: self.session.probe("10"),
        ):
            with self.assertRaises(Inconsistent):
                ask()
        self.assertEqual(self.session.graph().parts, 6)

    def test_graph(self):
        self.session.see({"22": 1})
        graph = self.session.graph()
        # Its text has the lines that its header says, and the next answer is in step.
        self.assertEqual((graph.nodes + 1, graph.parts), (graph.text.count("\n"), 6))
        self.assertEqual(self.session.minimum().cost, 0)
        with tempfile.NamedTemporaryFile(suffix=".nnf") as file:
            graph.write(file.name)
            with Service(file.name, health=6) as asked, asked.session() as session:
                self.assertEqual(session.minimum(), Minimum(0, ()))
                self.assertEqual(asked.parts[0], "00001")
            # If there is no room, what was there stays.
            limit = resource.getrlimit(resource.RLIMIT_FSIZE)
            try:
                resource.setrlimit(resource.RLIMIT_FSIZE, (0, limit[1]))
                self.assertRaises(OSError, graph.write, file.name)
            finally:
                resource.setrlimit(resource.RLIMIT_FSIZE, limit)
            self.assertEqual(pathlib.Path(file.name).read_text(), graph.text)

    def test_any_command(self):
        self.assertEqual(self.session.ask("see", "22=1"), ["S ok"])
        self.assertEqual(dict(self.session.seen), {"22": 1})
        self.assertEqual(self.session.ask("list", "3"), replies(["open S", "see S 22=1", "list S 3"])[2:])
        self.assertEqual(self.session.ask("probes"), replies(["open S", "see S 22=1", "probes S"])[2:])
        self.assertEqual(self.session.ask("dnnf")[0], "S dnnf")
        with self.assertRaises(Refused):
            self.session.ask("dance")
        for command in ("close", "open", "# see", "", "see S"):
            with self.assertRaises(ValueError):
                self.session.ask(command)
        for line in ("", "  ", "# see"):
            self.assertEqual(self.service.ask(line), [])
        with self.assertRaises(ValueError):
            self.service.ask("min S\nmin S")
        # A listing that was begun by hand does not disturb one that is begun here.
        self.assertEqual(list(self.session.diagnoses()), [Diagnosis(())])

    def test_words(self):
        for word in ("a b", "a\nclose S", "a\tb", "a\r"):
            for wrong in ({word: 1}, {"1": word}):
                with self.assertRaises(ValueError):
                    self.session.see(wrong)
        with self.assertRaises(ValueError):
            self.session.unsee("")
        self.assertEqual(dict(self.session.seen), {})

    def test_bits(self):
        self.session.see({"1": True, "2": False})
        self.assertEqual(dict(self.session.seen), {"1": 1, "2": 0})

    def test_copy(self):
        self.session.see(CASE)
        self.session.hold({"10": "ok"})
        with self.session.copy() as other:
            self.assertEqual(other.minimum(), self.session.minimum())
            other.unhold("10")
            self.assertEqual(other.minimum().faulty, ("10",))
        self.assertEqual(self.session.minimum().faulty, ("22",))


@needs_program
class Listing(unittest.TestCase):
    """Diagnoses are told from the first on, however they are paged and whatever else is asked between."""

    WIDE = EXAMPLES / "ripple_64.bench"

    def setUp(self):
        self.served = self.enterContext(Service(self.WIDE))
        self.session = self.enterContext(self.served.session("S"))
        # All that is added is 0, and four sums far from each other were seen as 1.
        inputs = re.findall(r"INPUT\((.+?)\)", self.WIDE.read_text())
        sums = re.findall(r"OUTPUT\((.+?)\)", self.WIDE.read_text())
        self.session.see(dict.fromkeys(inputs, 0) | {wire: int(number in (10, 26, 42)) for number, wire in enumerate(sums)})
        seen = [f"see S {wire}={bit}" for wire, bit in self.session.seen.items()]
        told = replies(["open S", *seen, "list S 1000000"], file=self.WIDE)
        self.all = [line.removeprefix("S diag ") for line in told if line.startswith("S diag ")]

    def told(self, *limit):
        return [str(diagnosis) for diagnosis in self.session.diagnoses(*limit)]

    def test_pages(self):
        self.assertGreater(len(self.all), 100)
        self.assertEqual(self.told(), self.all)
        self.assertEqual(self.told(), self.all)
        for limit in (0, 1, 7, 8, 9, 24, 25, 100):
            self.assertEqual(self.told(limit), self.all[:limit])

    def test_two_at_once(self):
        one, two = self.session.diagnoses(), self.session.diagnoses()
        for expected in self.all[:30]:
            self.assertEqual((str(next(one)), str(next(two))), (expected, expected))
            self.session.minimum()

    def test_after(self):
        self.session.after(*self.all[40].split())
        self.assertEqual(self.told(3), self.all[41:44])
        self.assertEqual(self.told(3), self.all[41:44])
        self.session.see({next(iter(self.session.seen)): 0})
        self.assertEqual(self.told(3), self.all[:3])
        self.session.after(*self.all[-1].split())
        self.assertEqual(self.told(), [])

    def test_changed_between(self):
        listing = self.session.diagnoses()
        next(listing)
        self.session.hold({self.served.parts[0]: "ok"})
        with self.assertRaises(RuntimeError):
            next(listing)

    def test_nothing_known(self):
        with self.served.session() as empty:
            for _ in range(3):
                self.assertEqual(list(empty.diagnoses()), [Diagnosis(())])


@needs_program
class Levels(unittest.TestCase):
    """States by rising cost, and the graph of the diagnoses, over the example that stores its replies."""

    def setUp(self):
        self.served = self.enterContext(Service(EXAMPLES / "pump.dev", levels=9, least=True))
        self.session = self.enterContext(self.served.session("S"))
        self.session.see(switch=1, ready=1, inlet=0)

    def test_levels(self):
        told = [line.split()[2:] for line in (EXAMPLES / "levels/pump.expected").read_text().splitlines() if line.startswith("S level ")]
        found = [[str(state.cost), *state.faulty] for state in self.session.levels()]
        self.assertEqual(found[:7], told[:7])
        self.assertEqual(self.session.level(), Level(1, ("relay",)))
        # Both listings have one point, and neither disturbs the other.
        self.assertEqual(list(self.session.diagnoses()), [Diagnosis(("relay",))])
        self.session.after("at_outlet", "at_tank", "relay")
        self.assertEqual(next(self.session.levels()), Level(8, ("pump",)))
        self.session.hold({"pump": "ok", "relay": "ok", "at_inlet": "ok"})
        with self.assertRaises(Inconsistent):
            self.session.level()

    def test_least_graph(self):
        graph = self.session.least_graph()
        self.assertEqual((graph.nodes + 1, graph.parts), (graph.text.count("\n"), 5))
        self.assertEqual(self.session.minimum().cost, 1)


class Canned(unittest.TestCase):
    """The same by replies that a stand-in has stored: the lines that are asked, and what is read from them."""

    TOLD = {
        "levels S 8": ["level 0", *(f"level 1 p{part}" for part in range(7))],
        "levels S 16": ["level 1 p7", "level 2 p0 p1", "end"],
        "levels S 3": ["level 0", "level 1 p0", "level 1 p1"],
        "levels S 1": ["end"],
        "leastnnf S": ["leastnnf"],
    }
    GRAPH = ["nnf 4 1 1", "L 1", "L -1", "A 1 0", "A 1 2"]

    def session(self, **told):
        lines = {line: "\n".join([f"S {reply}" for reply in replies]) for line, replies in {**self.TOLD, **told}.items()}
        lines["leastnnf S"] += "\n" + "\n".join(self.GRAPH) if lines["leastnnf S"] == "S leastnnf" else ""
        served = self.enterContext(Service(C17, levels=2, least=True, program=stand_in("tells", json.dumps(lines))))
        return self.enterContext(served.session("S"))

    def test_levels(self):
        session = self.session()
        expected = [Level(0, ()), *(Level(1, (f"p{part}",)) for part in range(8)), Level(2, ("p0", "p1"))]
        self.assertEqual(list(session.levels()), expected)
        self.assertEqual(list(session.levels(3)), expected[:3])
        self.assertEqual([str(state) for state in expected[::9]], ["0: nothing", "2: p0 p1"])
        self.assertIsNone(session.level())

    def test_changed_between(self):
        session = self.session()
        listing = session.levels()
        next(listing)
        session.hold(p1="ok")
        with self.assertRaises(RuntimeError):
            next(listing)

    def test_no_state(self):
        with self.assertRaises(Inconsistent):
            self.session(**{"levels S 1": ["inconsistent"]}).level()

    def test_least_graph(self):
        graph = self.session().least_graph()
        self.assertEqual((graph.nodes, graph.parts, graph.text.splitlines()), (4, 1, self.GRAPH))

    def test_refused(self):
        session = self.session(**{"levels S 8": ["error 11 no levels"], "leastnnf S": ["error 12 no least"], "dnnf S": ["error 13 no graph"]})
        for number, error, ask, hint in (
            (11, Refused, lambda: next(session.levels()), "levels=C"), (12, Refused, session.least_graph, "least=True"),
            (13, NoGraph, session.graph, "engine='graph'"),
        ):
            with self.assertRaises(error) as caught:
                ask()
            self.assertEqual(caught.exception.number, number)
            self.assertIn(hint, str(caught.exception))


@needs_program
class Refusals(unittest.TestCase):
    """Each refusal is an exception with the number and the text that the program has for it."""

    # A script whose last line is refused, and the same by the client. The session S is open.
    ROWS = {
        "dance S": lambda session: session.ask("dance"),
        "min S S": lambda session: session.ask("min", "S"),
        "probe S (": lambda session: session.probe("("),
        "see S 1=2": lambda session: session.see({"1": 2}),
        "hold S 10=fine": lambda session: session.hold({"10": "fine"}),
        "open S": lambda session: session.service.session("S"),
        "see S 99=1": lambda session: session.see({"99": 1}),
        "probe S 99": lambda session: session.best_probe(among=["99"]),
        "hold S 1=ok": lambda session: session.hold({"1": "ok"}),
        "after S 10 1": lambda session: session.after("10", "1"),
        "level S": lambda session: session.level(),
        "leastnnf S": lambda session: session.least_graph(),
        "see S " + "1" * 1_048_576 + "=1": lambda session: session.see({"1" * 1_048_576: 1}),
    }

    def check(self, caught, line, *before, sessions=()):
        said = replies([*before, line], *sessions)[-1]
        self.assertEqual(f"error {caught.number} {caught.text}", said.removeprefix("S ").removeprefix("T "))
        return caught.number

    def test_refusals(self):
        numbers = set()
        for line, ask in self.ROWS.items():
            with self.subTest(line[:40]), Service(C17) as served, served.session("S") as session:
                with self.assertRaises(Refused) as caught:
                    ask(session)
                numbers.add(self.check(caught.exception, line, "open S"))
                self.assertEqual((dict(session.seen), dict(session.held)), ({}, {}))
                self.assertEqual(session.minimum().cost, 0)
        with Service(C17, sessions=1) as served, served.session("S") as session:
            with self.assertRaises(Refused) as caught:
                served.session("T")
            numbers.add(self.check(caught.exception, "open T", "open S", sessions=("--sessions", "1")))
            session.close()
            with self.assertRaises(Refused) as caught:
                session.minimum()
            numbers.add(self.check(caught.exception, "min S"))
        # All that there are: the numbers have no gap.
        self.assertEqual(numbers, set(range(1, len(numbers) + 1)))
        self.assertGreaterEqual(len(numbers), 10)

    def test_the_others_are_carried_out(self):
        with Service(C17) as served, served.session() as session:
            with self.assertRaises(Refused) as caught:
                session.see({"1": 0, "99": 1, "2": 1, "98": 1})
            self.assertIn("99=1", caught.exception.line)
            self.assertEqual(dict(session.seen), {"1": 0, "2": 1})

    def test_many_sessions(self):
        """There is room for as many as the program allows, unless its own default is asked for."""
        with Service(C17) as served:
            self.assertEqual(len({session.name for session in [served.session() for _ in range(1024)]}), 1024)
        with Service(C17, sessions=None) as served, self.assertRaises(Refused) as caught:
            [served.session() for _ in range(17)]
        self.assertEqual(caught.exception.line, "open s17")

    def test_best_probe_needs_room(self):
        with Service(C17, sessions=1) as served, served.session("S") as session:
            with self.assertRaises(Refused) as caught:
                session.best_probe()
            self.check(caught.exception, "open T", "open S", sessions=("--sessions", "1"))
            self.assertEqual(session.minimum().cost, 0)


@needs_program
class Services(unittest.TestCase):
    """How a service begins and ends."""

    def test_refused_files(self):
        with tempfile.NamedTemporaryFile(suffix=".bench", mode="w") as file:
            file.write("INPUT(a)\ny = NOT(a)\ny = NOT(a)\n")
            file.flush()
            with self.assertRaisesRegex(Ended, "status 1: error: line 3: fault 6 driven twice"):
                Service(file.name)
        with self.assertRaises(FileNotFoundError):
            Service("nowhere.bench")
        with self.assertRaises(Ended) as caught:
            Service(C17, budget=9)
        self.assertEqual((caught.exception.status, caught.exception.last_line), (3, "error: sum above 9"))

    def test_options(self):
        with Service(EXAMPLES / "narrow/multiplier.bench", sessions=2) as served:
            self.assertTrue(served.is_running)

    def test_made_names(self):
        with Service(C17) as served, served.session("s1"), served.session() as made:
            self.assertEqual(made.name, "s2")

    def test_names_that_are_numbers(self):
        with Service(C17) as served:
            sessions = [served.session(number) for number in range(3)]
            sessions[1].see({"22": 1})
            self.assertEqual([len(session.seen) for session in sessions], [0, 1, 0])
            self.assertEqual(sessions[2].name, "2")

    def test_names(self):
        """A table and the page take just the names that the program takes."""
        names = [*map(chr, range(ord("!"), 128)), "a" * 64, "a" * 65, "t:01", "é", "a\x01"]
        with Service(C17) as served:
            told = served.batch(f"open {name}" for name in names)
        taken = [name for name, lines in zip(names, told, strict=True) if lines == [f"{name} open"]]
        self.assertEqual([name for name in names if SESSION_NAME.fullmatch(name)], taken)

    def test_threads(self):
        """Several threads share a service by a lock."""
        with Service(C17, sessions=8) as served:
            found, lock = [], threading.Lock()

            def ask():
                with lock:
                    session = served.session()
                    session.see(CASE)
                for _ in range(20):
                    with lock:
                        found.append(list(session.diagnoses()))

            threads = [threading.Thread(target=ask) for _ in range(8)]
            for thread in threads:
                thread.start()
            for thread in threads:
                thread.join()
        self.assertEqual(found, [[Diagnosis(("10",)), Diagnosis(("22",))]] * 160)

    def test_what_is_started(self):
        with tempfile.TemporaryDirectory() as top, mock.patch.dict("os.environ"):
            top = pathlib.Path(top)
            del os.environ["DIAG_PROGRAM"]
            os.environ["PATH"] = f"{top}/path"
            with mock.patch.multiple(program, TOP=top, PACKED=top / "bin/diag", installed_from=lambda: None):
                with self.assertRaisesRegex(NotBuilt, "DIAG_PROGRAM"):
                    find_program()
                self.write(top / "path/diag", "")
                self.assertEqual(find_program(), f"{top}/path/diag")
                self.write(top / "diag", "exit 1")
                with self.assertRaisesRegex(NotBuilt, "is not built.*diag --build.* 20 minutes .*DIAG_PROGRAM"):
                    find_program()
                self.write(top / "crates/diag/out/diag", "")
                with self.assertRaisesRegex(NotBuilt, "from these sources.*diag --build"):
                    find_program()
                self.write(top / "diag", '[ "$1" = --path ] && echo /built/diag')
                self.assertEqual(find_program(), "/built/diag")
                self.write(top / "bin/diag", "")
                self.assertEqual(find_program(), f"{top}/bin/diag")
                os.environ["DIAG_PROGRAM"] = "named"
                self.assertEqual(find_program(), "named")

    @staticmethod
    def write(path, text):
        path.parent.mkdir(parents=True, exist_ok=True)
        path.write_text(f"#!/bin/sh\n{text}\n")
        path.chmod(0o755)


@needs_program
class Cases(unittest.TestCase):
    """A case as a script, and what wires should be."""

    def setUp(self):
        self.service = self.enterContext(Service(C17, engine="graph"))
        self.session = self.enterContext(self.service.session("S"))

    def test_script(self):
        self.session.see(CASE)
        self.session.hold({"10": "ok"})
        with self.service.session_from(self.session.script()) as other:
            self.assertEqual((dict(other.seen), dict(other.held)), (CASE, {"10": "ok"}))
        told = replies(["open S", *self.session.script().splitlines(), "min S"])
        self.assertEqual(told[-1], "S min 1 22")

    def test_load(self):
        """As the program carries it out, except what is asked, and other sessions."""
        script = "open T\nsee T 1=1\n# see T 2=1\n\nopen S\nsee S 1=0\nopen S\nsee S 2=0\nmin S\nsee\tS 3=1\r\nunsee S 3\nclose S\n"
        self.session.load(io.StringIO(script))
        self.assertEqual(dict(self.session.seen), {"2": 0})
        self.session.load(script, of="T")
        self.assertEqual(dict(self.session.seen), {"1": 1, "2": 0})

    def test_load_refused(self):
        with self.assertRaises(Refused) as caught:
            self.session.load("see S 1=0\nsee S 99=1\nsee S 3=0\n")
        self.assertEqual((caught.exception.text, dict(self.session.seen)), ("no wire", {"1": 0, "3": 0}))
        with self.assertRaises(Refused):
            self.service.session_from("see S 99=1\n", 5)
        self.service.session(5).close()

    def test_batch(self):
        lines = ["see 1=0", "see 99=1", "hold 10=ok", "min", "probes"]
        told = self.session.batch(lines)
        self.assertEqual(sum(told, []), replies(["open S", *(" S ".join((line + " ").split(" ", 1)).strip() for line in lines)])[1:])
        self.assertEqual((dict(self.session.seen), dict(self.session.held)), ({"1": 0}, {"10": "ok"}))
        self.assertEqual(self.service.batch([]), [])

    def test_expected(self):
        self.session.see(CASE)
        self.session.hold({"22": "bad"})
        # The gates of C17 are NANDs, and all inputs are 0.
        should = {**ZERO, "10": 1, "11": 1, "16": 1, "19": 1, "22": 0, "23": 0}
        self.assertEqual(self.session.expected(), should)
        self.assertEqual([self.session.expect(wire) for wire in should], list(should.values()))
        self.assertEqual((dict(self.session.seen), dict(self.session.held)), (CASE, {"22": "bad"}))
        self.session.unsee("1", "2")
        self.assertEqual((self.session.expect("2"), self.session.expect("10"), self.session.expect("22")), (None, 1, None))
        with self.assertRaises(Refused):
            self.session.expect("99")

    def test_expected_over_times(self):
        with Service(EXAMPLES / "frames/toggle.bench", frames=2) as served, served.session() as session:
            self.assertEqual(served.inputs, {"q@0001"})
            session.see({"q@0001": 0, "q@0002": 0})
            self.assertEqual(session.expected(), {"next@0001": 1, "next@0002": 0, "q@0001": 0, "q@0002": 1})

    def test_expected_of_a_design(self):
        with Service(EXAMPLES / "pump.dev") as served, served.session() as session:
            session.see(switch=1, ready=1)
            self.assertEqual(session.expect("power"), 1)
            session.see(inlet=0)
            self.assertEqual(session.expect("inlet"), 1)
            session.unsee("ready")
            self.assertIsNone(session.expect("inlet"))

    def test_names_as_one_text(self):
        """A text is taken for names of one letter each by no call."""
        for ask in (lambda: self.session.best_probe("16"), lambda: self.session.rank_probes("1"), lambda: self.session.probe_each("1")):
            with self.assertRaises(TypeError):
                ask()

    def test_short_texts(self):
        graph = self.session.graph()
        self.assertRegex(repr(graph), r"^Graph\(nodes=[0-9]+, edges=[0-9]+, parts=6\)$")
        self.session.see(CASE)
        self.assertEqual(repr(self.session), "<Session S of c17.bench: 7 seen, 0 held>")


if __name__ == "__main__":
    unittest.main()
