"""What a notebook shows: pictures and tables."""

import gc
import unittest
import weakref
from unittest import mock

from support import C17, EXAMPLES, needs_program

from diag_client import Blame, DiagError, Diagnosis, Minimum, Probe, Service, Verdict, display
from diag_client.pictures import graphviz

SEEN = {"1": 0, "2": 0, "3": 0, "6": 0, "7": 0, "22": 1, "23": 0}


class Tables(unittest.TestCase):
    """Answers as HTML."""

    def test_suspects_come_first(self):
        rows = display.Rows([Blame("a<b", Verdict.NEVER), Blame("c", Verdict.SOMETIMES), Blame("d", Verdict.ALWAYS)])
        shown = rows._repr_html_()
        self.assertLess(shown.index(">d<"), shown.index(">c<"))
        self.assertLess(shown.index(">c<"), shown.index("a&lt;b"))
        self.assertEqual([row.part for row in rows], ["a<b", "c", "d"])

    def test_answers(self):
        self.assertIn("<td>1</td><td>10 16</td>", Minimum(1, ("10", "16"))._repr_html_())
        self.assertIn("<td>nothing</td>", display.table([Diagnosis(())]))
        self.assertEqual(display.table([]), "<p>none</p>")

    def test_long_lists_are_cut(self):
        rows = [Probe(str(number), 0, None) for number in range(100)]
        self.assertEqual(display.table(rows).count("<tr>"), 1 + display.MOST_ROWS)
        self.assertIn("and 40 more", display.table(rows))
        self.assertIn("<p>and more</p>", display.Listed(lambda: iter(rows))._repr_html_())

    def test_a_listing_is_not_taken(self):
        listed = display.Listed(lambda: iter([Diagnosis(("10",)), Diagnosis(("22",))]))
        self.assertEqual(next(listed).faulty, ("10",))
        self.assertIn("<td>10</td>", listed._repr_html_())
        self.assertEqual([row.faulty for row in listed], [("22",)])

    def test_an_error_is_shown(self):
        self.assertEqual(display.Listed(mock.Mock(side_effect=[iter([]), DiagError("a<b")]))._repr_html_(), "<p>a&lt;b</p>")


@needs_program
class Sessions(unittest.TestCase):
    """A session in a notebook."""

    def test_picture(self):
        drawn = mock.Mock(return_value=b"<svg>")
        with Service(C17) as service, mock.patch.object(graphviz, "find_dot", lambda: "dot"), mock.patch.object(graphviz, "layout", drawn):
            with service.session() as session:
                session.see(SEEN)
                self.assertEqual((session._repr_svg_(), session._repr_html_()), ("<svg>", None))
                self.assertEqual(session._repr_svg_(), "<svg>")
                drawn.assert_called_once()
                session.unsee("22")
                self.assertEqual(session._repr_svg_(), "<svg>")
                self.assertEqual(drawn.call_count, 2)
            # Once it is closed there is nothing to ask.
            self.assertEqual((session._repr_svg_(), session._repr_html_()), (None, None))

    def test_table(self):
        with Service(C17) as service, service.session("A<B") as session, mock.patch.object(graphviz, "find_dot", lambda: None):
            session.see(SEEN)
            session.hold({"23": "ok"})
            self.assertIsNone(session._repr_svg_())
            shown = session._repr_html_()
            wrong = '<td>22</td><td>1</td><td style="color:#d7191c">0</td>'
            for said in ("session A&lt;B", "diagnoses: 10, 22", "measure next: 10", wrong):
                self.assertIn(said, shown)
            self.assertIn("<td>23</td><td>ok</td>", shown)
            session.hold({"10": "ok", "22": "ok"})
            self.assertIn("no set of faulty parts explains", session._repr_html_())

    def test_no_gates(self):
        with Service(EXAMPLES / "lamps.nnf", health=3) as service, service.session() as session:
            self.assertIsNone(session._repr_svg_())
            self.assertIn("least cost" if session.minimum().cost else "nothing is wrong", session._repr_html_())

    def test_a_failing_dot_is_no_error(self):
        failing = mock.Mock(side_effect=DiagError("no"))
        with Service(C17) as service, service.session() as session, mock.patch.object(graphviz, "find_dot", lambda: "dot"):
            with mock.patch.object(graphviz, "layout", failing):
                self.assertIsNone(session._repr_svg_())
                self.assertIn("nothing is wrong", session._repr_html_())

    def test_lists(self):
        with Service(C17, levels=2) as service, service.session() as session:
            session.see(SEEN)
            for rows in (session.blame(), session.probes(), session.rank_probes(["10"]), session.diagnoses(), session.levels(3)):
                self.assertIn("<table>", rows._repr_html_())
            self.assertEqual(session.blame(), list(session.blame()))

    def test_a_session_is_not_kept(self):
        with Service(C17) as service:
            session = service.session()
            session._repr_html_()
            kept = weakref.ref(session)
            session.close()
            del session
            gc.collect()
            self.assertIsNone(kept())


if __name__ == "__main__":
    unittest.main()
