"""The chips of a board, as pictures show them."""

import pathlib
import tempfile
import unittest

from support import C17, needs_program
from test_chips_converted import board_text, node, part

from diag_client import Service, Verdict
from diag_client.convert.netlist import convert
from diag_client.devices import read_device
from diag_client.pictures.packages import packages_of

NETS = {
    "A": [node("U10", 1, "input"), node("J1", 1)],
    "B": [node("U10", 2, "input"), node("J1", 2)],
    "MIDDLE": [node("U10", 3, "output"), node("U2", 2, "input")],
    "ON": [node("U2", 1, "input"), node("J1", 3)],
    "Y": [node("U2", 3, "tri_state"), node("J1", 4)],
    "VCC": [node("U10", 14, "power_in"), node("U2", 14, "power_in")],
    "GND": [node("U10", 7, "power_in"), node("U2", 7, "power_in")],
}
PARTS = [part("U10", "SN74LS00N"), part("U2", "74HC125"), part("J1", "Conn")]


def shown(legs):
    return " ".join(f"{leg.number}:{leg.name}:{leg.direction}:{leg.wire}" for leg in legs)


class Packages(unittest.TestCase):
    def setUp(self):
        self.board = pathlib.Path(self.enterContext(tempfile.TemporaryDirectory())) / "board.net"
        self.board.write_text(board_text(PARTS, NETS))

    def packages(self, is_of_gates):
        convert(self.board, None, is_of_gates)
        device = self.board.with_suffix(".dev")
        return packages_of(device, read_device(device))

    def test_pins_are_around_the_package(self):
        driver, gate = self.packages(is_of_gates=False)
        self.assertEqual((driver.reference, driver.printed, driver.title, driver.parts), ("U2", "74HC125", "Four buffers", ("U2",)))
        self.assertEqual((gate.reference, gate.printed, gate.parts), ("U10", "SN74LS00N", ("U10",)))
        left = "1:1A:in:A 2:1B:in:B 3:1Y:out:MIDDLE 4:2A:in: 5:2B:in: 6:2Y:out: 7:GND:power:"
        right = "14:VCC:power: 13:4B:in: 12:4A:in: 11:4Y:out: 10:3B:in: 9:3A:in: 8:3Y:out:"
        self.assertEqual((shown(gate.left), shown(gate.right)), (left, right))
        self.assertTrue(shown(driver.left).startswith("1:1OE_n:in:ON 2:1A:in:MIDDLE 3:1Y:tristate:Y 4:"), shown(driver.left))

    def test_gates_are_in_their_chip(self):
        driver, gate = self.packages(is_of_gates=True)
        self.assertEqual(gate.parts, ("U10.3",))
        self.assertEqual(driver.parts, ("U2.1Y", "U2.1Y_on", "U2.1on", "U2.3"))

    @needs_program
    def test_what_is_said_of_a_chip(self):
        for is_of_gates in (False, True):
            driver, gate = self.packages(is_of_gates)
            with Service(self.board.with_suffix(".dev")) as service, service.session() as session:

                def verdicts():
                    found = {row.part: row.verdict for row in session.blame()}
                    return driver.verdict(found), gate.verdict(found)

                self.assertEqual(verdicts(), (Verdict.NEVER, Verdict.NEVER))
                # The gate should give 0, and the driver is on.
                session.see(A=1, B=1, ON=0, Y=1)
                self.assertEqual(verdicts(), (Verdict.SOMETIMES, Verdict.SOMETIMES))
                session.see(MIDDLE=0)
                self.assertEqual(verdicts(), (Verdict.ALWAYS, Verdict.NEVER))

    def test_another_device_has_none(self):
        self.assertEqual(packages_of(C17, read_device(C17)), [])


if __name__ == "__main__":
    unittest.main()
