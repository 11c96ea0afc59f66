"""One service for many threads: turns, and what comes between the questions of advice and of a search."""

import threading
import unittest
from unittest import mock

from support import C17, SOON, kill, needs_program, wait_until

from diag_client.bench import boards, shared
from diag_client.replies import Lines
from diag_client.service import Service

ZEROS = "1=0 2=0 3=0 6=0 7=0"


class Order(unittest.TestCase):
    """Who has the next turn."""

    def test_clicks_come_first(self):
        turns, order, threads = shared.Turns(), [], []

        def take(rank, name):
            with turns.taken(rank):
                order.append(name)

        with turns.taken(shared.ADVICE):
            ranks = {"advice": shared.ADVICE, "search": shared.SEARCH, "click": shared.CLICK, "later click": shared.CLICK}
            for name, rank in ranks.items():
                threads.append(threading.Thread(target=take, args=(rank, name)))
                threads[-1].start()
                wait_until(lambda: len(turns._waiting) == len(threads))
            self.assertEqual(order, [])
        for thread in threads:
            thread.join(SOON)
        self.assertEqual(order, ["click", "later click", "search", "advice"])
        take(shared.CLICK, "free again")

    def test_an_error_passes_the_turn_on(self):
        turns = shared.Turns()
        with self.assertRaises(ValueError), turns.taken(shared.CLICK):
            raise ValueError
        with turns.taken(shared.CLICK):
            pass


class Stopped:
    """Lets the program answer the first few requests of a kind of errand, and then makes the asking thread wait until it is let go on."""

    def __init__(self, case, rank, free):
        self.reached, self.go_on = threading.Event(), threading.Event()
        self.rank, self.free = rank, free
        self.carry_out = Service.carry_out
        patch = mock.patch.object(shared.SharedService, "carry_out", self.asked())
        patch.start()
        case.addCleanup(patch.stop)
        case.addCleanup(self.go_on.set)

    def asked(self):
        real, stopped = shared.SharedService.carry_out, self

        def carry_out(service, requests):
            for piece in shared.pieces(requests) if service._errand().rank == stopped.rank else [requests]:
                if service._errand().rank == stopped.rank:
                    stopped.free -= 1
                    if stopped.free < 0:
                        stopped.reached.set()
                        stopped.go_on.wait(SOON)
                real(service, piece)

        return carry_out


@needs_program
class Together(unittest.TestCase):
    """Boards of one service, in threads."""

    def setUp(self):
        self.bench = boards.Bench(C17)
        self.addCleanup(self.bench.close)
        # A search may be stopped for longer than a page waits for its answer.
        self.enterContext(mock.patch.object(boards, "LONGEST", 2 * SOON))
        self.board = self.bench.open_board()
        self.board.do({"act": "readings", "text": f"{ZEROS} 22=1 23=0"})

    def begin(self, act, board=None):
        """Does something in a thread of its own, whose answers come in a list."""
        answers = []
        thread = threading.Thread(target=lambda: answers.append((board or self.board).do({"act": act})), daemon=True)
        thread.start()
        self.addCleanup(thread.join, SOON)
        return thread, answers

    def test_clicks_come_between_the_questions_of_advice(self):
        stopped = Stopped(self, shared.ADVICE, 4)
        thread, answers = self.begin("advise")
        self.assertTrue(stopped.reached.wait(SOON))
        other = self.bench.open_board()
        self.assertEqual(other.do({"act": "turn", "wire": "22"})["patterns"][0]["seen"], [("22", 0)])
        # Who watches the board whose advice is awaited does not wait either, nor does who draws its cone.
        self.assertIsNone(self.board.state()["advice"])
        self.assertEqual(self.board.cone(), {"10", "22"})
        stopped.go_on.set()
        thread.join(SOON)
        self.assertEqual([row["wire"] for row in answers[0]["advice"]], ["10"])

    def test_advice_is_dropped_for_a_newer_click(self):
        stopped = Stopped(self, shared.ADVICE, 4)
        thread, answers = self.begin("advise")
        self.assertTrue(stopped.reached.wait(SOON))
        click, clicked = threading.Thread(target=lambda: self.board.do({"act": "turn", "wire": "19"})), self.board._newest
        click.start()
        wait_until(lambda: self.board._newest != clicked)
        asked = stopped.free
        stopped.go_on.set()
        thread.join(SOON)
        click.join(SOON)
        self.assertIsNone(answers[0]["advice"])
        self.assertEqual(stopped.free, asked)
        self.assertEqual(self.board.state()["version"], answers[0]["version"] + 1)
        # Nothing of it is left in the program.
        self.assertEqual(len(self.bench.service._open), 1)
        self.assertIsNotNone(self.board.do({"act": "advise"})["advice"])

    def test_clicks_come_between_the_questions_of_a_search(self):
        self.board.do({"act": "pattern", "how": "new"})
        stopped = Stopped(self, shared.SEARCH, 3)
        answers = []
        act = {"act": "readings", "text": "1=1 2=0 3=1 6=0 7=0 22=0 23=0"}
        thread = threading.Thread(target=lambda: answers.append(self.board.do(act)))
        thread.start()
        self.assertTrue(stopped.reached.wait(SOON))
        self.assertEqual(self.bench.open_board().do({"act": "turn", "wire": "22"})["cost"], 0)
        stopped.go_on.set()
        thread.join(SOON)
        self.assertEqual([row["parts"] for row in answers[0]["candidates"]], [("10",), ("22",)])

    def test_one_question_has_a_turn(self):
        self.board.do({"act": "pattern", "how": "new"})
        self.board.do({"act": "readings", "text": "1=1 2=0 3=1 6=0 7=0 22=0 23=0"})
        turns, real = {shared.SEARCH: [], shared.ADVICE: []}, Service.carry_out

        def count(service, requests):
            if (rank := service._errand().rank) in turns:
                turns[rank].append(sum(not isinstance(request, Lines) for request in requests))
            real(service, requests)

        with mock.patch.object(Service, "carry_out", count):
            self.board.do({"act": "advise"})
            self.board.do({"act": "hold", "part": "16", "mode": "ok"})
            self.board.do({"act": "pattern", "how": "remove", "name": "P2"})
            self.board.do({"act": "advise"})
        for asked in turns.values():
            self.assertGreater(len(asked), 2)
            self.assertEqual(max(asked), 1)

    def test_advice_goes_on_after_the_program_was_started_again(self):
        stopped = Stopped(self, shared.ADVICE, 4)
        thread, answers = self.begin("advise")
        self.assertTrue(stopped.reached.wait(SOON))
        kill(self.bench.service)
        self.assertEqual(self.bench.open_board().do({"act": "turn", "wire": "22"})["restarts"], 1)
        stopped.go_on.set()
        thread.join(SOON)
        # It was asked anew, and not of sessions that the new program knows only in part.
        self.assertEqual([(row["wire"], row["zero"], row["one"]) for row in answers[0]["advice"]], [("10", 1, 1)])
        self.assertEqual((self.bench.service.restarts, len(self.bench.service._open)), (1, 2))

    def test_many_boards_at_once(self):
        texts = {"22": [("10",), ("22",)], "23": [("16",), ("19",), ("23",)]}
        found = []

        def work(wire):
            board = self.bench.open_board()
            for _ in range(5):
                board.do({"act": "readings", "text": f"{ZEROS} {wire}=1"})
                advised = board.do({"act": "advise"})
                found.append((wire, [row["parts"] for row in advised["candidates"]]))
                board.do({"act": "clear"})

        for wire in texts:
            self.board.do({"act": "clear"})
            texts[wire] = [row["parts"] for row in self.board.do({"act": "readings", "text": f"{ZEROS} {wire}=1"})["candidates"]]
        threads = [threading.Thread(target=work, args=(wire,)) for wire in texts for _ in range(4)]
        for thread in threads:
            thread.start()
        for thread in threads:
            thread.join(2 * SOON)
        self.assertEqual(found.count(("22", texts["22"])), 20)
        self.assertEqual(found.count(("23", texts["23"])), 20)


if __name__ == "__main__":
    unittest.main()
