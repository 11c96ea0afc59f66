#!/usr/bin/env python3
"""Many people at one bench page: how long a click takes, with a case of their own in each tab, over one service.

`bench/many_tabs.py [--tabs N] [--bits B] [--seconds S]` serves an adder of B bits (5 gates each) and asks it as so many pages do, each on a
connection of its own: a click, and after a fifth of a second, if there was no further one, the question for the next measurement, which is
dropped if the next click comes before the answer. In each tab one or two gates of the adder are faulty, other ones than in the next tab.
"""

import argparse
import http.client
import json
import pathlib
import random
import resource
import signal
import statistics
import subprocess
import sys
import tempfile
import threading
import time

PYTHON = pathlib.Path(__file__).resolve().parents[1] / "python"
# What the page waits before it asks for the next measurement, and how long a person waits between two clicks, at least and at most.
IDLE = 0.2
BETWEEN = (0.5, 3.0)


def adder(bits):
    """A netlist of full adders."""
    lines = ["INPUT(c0000)"]
    for i in range(bits):
        a, b, c, h, s, g, p, o = (f"{word}{i + (word == 'o'):04}" for word in "abchsgpo")
        lines += [f"INPUT({a})", f"INPUT({b})", f"OUTPUT({s})", f"{h} = XOR({a}, {b})", f"{s} = XOR({h}, {c})", f"{g} = AND({a}, {b})"]
        lines += [f"{p} = AND({h}, {c})", f"c{o[1:]} = OR({g}, {p})"]
    return "\n".join(lines)


def readings(bits, chance):
    """Random inputs, and the sums with one or two gates faulty."""
    a, b, carry = chance.getrandbits(bits), chance.getrandbits(bits), 0
    faulty = set(chance.sample(range(bits), chance.choice((1, 2))))
    seen = {"c0000": 0}
    for i in range(bits):
        x, y = a >> i & 1, b >> i & 1
        seen |= {f"a{i:04}": x, f"b{i:04}": y, f"s{i:04}": x ^ y ^ carry ^ (i in faulty)}
        carry = x & y | (x ^ y) & carry
    return seen


class Tab:
    """One page."""

    def __init__(self, url, seed, bits):
        self.origin, self.host = url.rpartition("/")[0].rpartition("/")[0], url.split("/")[2]
        self.chance = random.Random(seed)
        self.seen = readings(bits, self.chance)
        self.clicks, self.advices, self.dropped = [], [], 0
        self.path = self.ask("GET", url.removeprefix(self.origin))

    def ask(self, method, path, act=None):
        """One request, as a page sends it."""
        connection = http.client.HTTPConnection(self.host)
        connection.request(method, path, json.dumps(act) if act else None, {"Origin": self.origin, "Content-Type": "application/json"})
        answer = connection.getresponse()
        data = answer.read()
        connection.close()
        assert answer.status in (200, 303), data
        return json.loads(data) if act else f"{path}{answer.headers['Location']}do"

    def timed(self, into, act):
        """One request, and how long it took, in milliseconds."""
        begin = time.perf_counter()
        state = self.ask("POST", self.path, act)
        into.append((time.perf_counter() - begin) * 1000)
        return state

    def enter(self):
        """Enters all readings at once."""
        self.ask("POST", self.path, {"act": "readings", "text": " ".join(f"{wire}={bit}" for wire, bit in self.seen.items())})

    def advise(self):
        """Asks for the next measurement."""
        times = []
        if self.timed(times, {"act": "advise"})["advice"] is None:
            self.dropped += 1
        else:
            self.advices += times

    def run(self, end):
        """Clicks on wires until the end."""
        time.sleep(self.chance.uniform(*BETWEEN))
        wires = [f"{word}{i:04}" for word in "hgp" for i in range(len(self.seen) // 3)]
        while time.monotonic() < end:
            pause = self.chance.uniform(*BETWEEN)
            if pause > IDLE:
                time.sleep(IDLE)
                threading.Thread(target=self.advise).start()
            time.sleep(max(0, pause - IDLE))
            self.timed(self.clicks, {"act": "turn", "wire": self.chance.choice(wires)})


def show(name, times):
    """One line of numbers."""
    if not times:
        print(f"{name}: none")
        return
    times = sorted(times)
    at = times[int(len(times) * 0.99)]
    print(f"{name}: {len(times)}, median {statistics.median(times):.0f} ms, 99 of 100 below {at:.0f} ms, longest {times[-1]:.0f} ms")


def main():
    parser = argparse.ArgumentParser(description=__doc__.split("\n")[0])
    parser.add_argument("--tabs", type=int, default=50)
    parser.add_argument("--bits", type=int, default=60)
    parser.add_argument("--seconds", type=float, default=20)
    words = parser.parse_args()
    with tempfile.TemporaryDirectory() as folder:
        file = pathlib.Path(folder, "adder.bench")
        file.write_text(adder(words.bits))
        server = subprocess.Popen(
            [sys.executable, "-m", "diag_client", "bench", file, "--no-browser"], cwd=PYTHON, stdout=subprocess.PIPE, text=True
        )
        try:
            url = next(line for line in server.stdout if line.startswith("Open")).split()[-1]
            tabs = [Tab(url, seed, words.bits) for seed in range(words.tabs)]
            for tab in tabs:
                tab.enter()
            end = time.monotonic() + words.seconds
            threads = [threading.Thread(target=tab.run, args=(end,)) for tab in tabs]
            for thread in threads:
                thread.start()
            for thread in threads:
                thread.join()
        finally:
            server.send_signal(signal.SIGINT)
            server.wait()
    used = resource.getrusage(resource.RUSAGE_CHILDREN)
    print(f"{words.tabs} tabs over {5 * words.bits} gates, {words.seconds:.0f} s")
    show("clicks", [ms for tab in tabs for ms in tab.clicks])
    show("next measurements", [ms for tab in tabs for ms in tab.advices])
    # On a machine that does other work too, this says more than the times above.
    print(f"the server and the program used {used.ru_utime + used.ru_stime:.1f} s of a processor")
    print(f"{sum(tab.dropped for tab in tabs)} were dropped for a newer click")


if __name__ == "__main__":
    main()
