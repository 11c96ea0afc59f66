"""The server of the page at the bench, as one who means no good meets it."""

import argparse
import http.client
import json
import pathlib
import re
import socket
import tempfile
import threading
import time
import unittest
from unittest import mock

from support import C17, SOON, needs_program

from diag_client import bench
from diag_client.bench import boards, server


def is_reachable():
    """Whether this machine reaches itself, which a closed box may not."""
    try:
        with socket.create_server(("127.0.0.1", 0)) as here:
            socket.create_connection(here.getsockname(), timeout=SOON).close()
    except OSError:
        return False
    return True


@needs_program
@unittest.skipUnless(is_reachable(), "this machine does not reach 127.0.0.1")
class Served(unittest.TestCase):
    """A bench that is served on a free port."""

    @classmethod
    def setUpClass(cls):
        cls.bench = boards.Bench(C17)
        cls.addClassCleanup(cls.bench.close)
        cls.server = server.Server(cls.bench, read_only=True)
        cls.addClassCleanup(cls.server.server_close)
        threading.Thread(target=cls.server.serve_forever, daemon=True).start()
        cls.addClassCleanup(cls.server.shutdown)
        cls.host = f"127.0.0.1:{cls.server.port}"
        cls.top = f"/{cls.server.token}/"

    def setUp(self):
        self.board = self.bench.open_board()
        self.path = f"{self.top}{self.board.id}/do"

    def ask(self, method, path, body=None, **headers):
        """The status, the headers and the body of an answer."""
        connection = http.client.HTTPConnection("127.0.0.1", self.server.port, timeout=SOON)
        headers = {name.replace("_", "-"): value for name, value in headers.items()}
        connection.putrequest(method, path, skip_host="Host" in headers)
        for name, value in headers.items():
            if value is not None:
                connection.putheader(name, value)
        connection.endheaders(body)
        answer = connection.getresponse()
        data = answer.read()
        connection.close()
        return answer.status, answer.headers, data

    def post(self, act, path=None, **headers):
        """The status and the JSON of an answer to what the page asks."""
        body = act if isinstance(act, bytes) else json.dumps(act).encode()
        given = {"Origin": f"http://{self.host}", "Content_Type": "application/json", "Content_Length": str(len(body))}
        status, _, data = self.ask("POST", path or self.path, body, **{**given, **headers})
        return status, json.loads(data)

    def test_the_page(self):
        status, headers, _ = self.ask("GET", self.top)
        self.assertEqual(status, 303)
        one, other = headers["Location"], self.ask("GET", self.top)[1]["Location"]
        self.assertNotEqual(one, other)
        status, headers, page = self.ask("GET", self.top + one)
        self.assertEqual((status, headers["Content-Type"]), (200, "text/html; charset=utf-8"))
        self.assertIn("default-src 'none'", headers["Content-Security-Policy"])
        self.assertIn("frame-ancestors 'none'", headers["Content-Security-Policy"])
        self.assertEqual((headers["Referrer-Policy"], headers["Cache-Control"]), ("no-referrer", "no-store"))
        for name in re.findall(rb'(?:src|href)="\.\./([^"]+)"', page):
            self.assertEqual(self.ask("GET", self.top + name.decode())[0], 200)
        # Nothing in the page runs but its one script, and nothing comes from elsewhere.
        self.assertNotRegex(page, rb"<script>|onclick|style=|https?:")

    def test_an_answer_is_the_whole_state(self):
        status, state = self.post({"act": "turn", "wire": "22"})
        self.assertEqual((status, state["patterns"][0]["seen"], state["read_only"]), (200, [["22", 0]], False))
        status, state = self.post({"act": "turn", "wire": "99"})
        self.assertEqual((status, state["patterns"][0]["seen"]), (422, [["22", 0]]))
        self.assertIn("99", state["error"])
        self.assertEqual(self.post({"act": "state", "version": state["version"]}), (200, {"same": True}))
        status, drawing = self.post({"open": None, "wrong": True}, self.path[:-2] + "drawing")
        self.assertEqual((status, len(drawing["boxes"])), (200, 6))

    def test_without_its_token(self):
        near = (f"/{self.server.token[:-1]}/", f"/{self.server.token}x/")
        for path in ("/", "//", "", "/x", f"/{self.board.id}/", f"/x/{self.board.id}/do", *near):
            self.assertEqual(self.ask("GET", path or "*")[0], 403, path)
            self.assertEqual(self.post({"act": "state"}, path or "*")[0], 403, path)
        self.assertEqual(self.post({"act": "state"}, "/page.js")[0], 403)

    def test_the_door_is_open_once(self):
        self.server.door = "a-word"
        self.assertEqual(self.ask("GET", "/a-word/", Host="evil.example")[0], 403)
        status, headers, _ = self.ask("GET", "/a-word/")
        self.assertEqual((status, headers["Location"]), (303, self.top))
        self.assertEqual(self.ask("GET", "/a-word/")[0], 403)
        self.assertEqual(self.ask("GET", "/None/")[0], 403)

    def test_of_another_board(self):
        for name in (self.board.id[:-1], self.board.watch_id, "", "..", "%2e%2e", "*", "0", self.board.id + "%00"):
            self.assertEqual(self.post({"act": "state"}, f"{self.top}{name}/do")[0], 404, name)

    def test_paths_are_not_files(self):
        for name in ("../page.js", "..%2fpage.js", "%2e%2e/page.js", "server.py", "__init__.py", "/etc/passwd", "%2fetc%2fpasswd",
                     "page.js/", "page.js%00", "./page.js", "index.html", "x/page.js", f"{self.board.id}/page.js",
                     f"{self.board.id}/../page.js", "page.js\\..\\x"):  # fmt: skip
            self.assertEqual(self.ask("GET", self.top + name)[0], 404, name)
        # What follows a question mark is nothing.
        self.assertEqual(self.ask("GET", self.top + "page.js?../../etc/passwd")[0], 200)

    def test_under_another_name(self):
        port = self.server.port
        for host in ("evil.example", f"evil.example:{port}", "127.0.0.1", f"127.0.0.1:{port}.evil.example",
                     f"127.0.0.1.evil.example:{port}",
                     f"localhost:{port + 1}", f"10.0.0.1:{port}", f"user@{self.host}", f"[::1]:{port}", ""):  # fmt: skip
            self.assertEqual(self.ask("GET", self.top, Host=host)[0], 403, host)
            self.assertEqual(self.post({"act": "state"}, Host=host, Origin=f"http://{host}")[0], 403, host)
        self.assertEqual(self.ask("GET", self.top, Host=f"localhost:{self.server.port}")[0], 303)

    def test_from_another_page(self):
        near = (f"https://{self.host}", f"http://{self.host}.evil.example", f"http://localhost:{self.server.port}")
        for origin in ("http://evil.example", "null", *near, "", None):
            self.assertEqual(self.post({"act": "state"}, Origin=origin)[0], 403, origin)
        self.assertEqual(self.ask("GET", self.top, Origin="http://evil.example")[0], 403)
        self.assertEqual(self.board.record, boards.Record())

    def test_bodies(self):
        self.assertEqual(self.post({}, Content_Type="text/plain")[0], 415)
        self.assertEqual(self.post({}, Content_Type="application/x-www-form-urlencoded")[0], 415)
        for length in ("99999999999999999999", "-1", "1e3", "", "9" * 5000, str(server.MOST_BODY + 1)):
            self.assertEqual(self.post({}, Content_Length=length)[0], 413, length)
        self.assertEqual(self.post({}, Content_Length=None)[0], 400)
        self.assertEqual(self.post({}, Transfer_Encoding="chunked")[0], 411)
        for body in (b"{", b"[]", b"1", b'"x"', b"[" * 100000, b"\xff\xfe", b"", b"nan", b"1" * 5000, b'{"act": NaN}'):
            self.assertIn(self.post(body)[0], (400, 422), body[:20])
        self.assertEqual(self.ask("PUT", self.path)[0], 501)
        self.assertEqual(self.ask("OPTIONS", self.path)[0], 501)

    def test_blocks_that_are_no_names(self):
        deep = b"[" * 900 + b"]" * 900
        for body in (b'{"open": [["first"], 1, null, "first"]}', b'{"open": [%s]}' % deep, b'{"open": {"first": 1}}'):
            status, drawn = self.post(body, f"{self.top}{self.board.id}/drawing")
            self.assertEqual((status, drawn["open"], len(drawn["boxes"])), (200, [], 6))

    def test_a_thread_that_does_not_start(self):
        with mock.patch.object(threading.Thread, "start", side_effect=RuntimeError), self.assertRaises(RuntimeError):
            self.server.process_request(None, None)
        # The room that it would have taken is free for others.
        taken = 0
        while self.server._room.acquire(blocking=False):
            taken += 1
        for _ in range(taken):
            self.server._room.release()
        self.assertEqual(taken, server.MOST_AT_ONCE)

    def test_slow_ones_are_left(self):
        with mock.patch.object(server, "PATIENCE", 0.5):
            head = f"POST {self.path} HTTP/1.1\r\nHost: {self.host}\r\nOrigin: http://{self.host}\r\n"
            for begun in (b"", b"GET ", f"{head}Content-Type: application/json\r\nContent-Length: 9\r\n\r\n".encode()):
                with socket.create_connection(("127.0.0.1", self.server.port), timeout=SOON) as slow:
                    end = time.monotonic() + SOON
                    slow.sendall(begun)
                    # A byte now and then does not win more time.
                    with self.assertRaises(OSError):
                        while time.monotonic() < end:
                            slow.sendall(b" ")
                            time.sleep(0.1)

    def test_watching(self):
        top = f"/{self.server.watch_token}/"
        self.post({"act": "turn", "wire": "22"})
        self.assertEqual(self.ask("GET", top)[1]["Location"], f"{self.board.watch_id}/")
        path = f"{top}{self.board.watch_id}/do"
        status, state = self.post({"act": "state"}, path)
        self.assertEqual((status, state["read_only"], state["watch"]), (200, True, None))
        self.assertNotIn(self.board.id, json.dumps(state))
        for act in ("turn", "undo", "load", "clear", "advise"):
            self.assertEqual(self.post({"act": act, "wire": "22", "text": ""}, path)[0], 403, act)
        self.assertEqual(self.post({"act": "state"}, f"{top}{self.board.id}/do")[0], 404)
        self.assertEqual(self.post({"act": "turn", "wire": "22"}, f"{self.top}{self.board.watch_id}/do")[0], 404)

    def test_names_are_text(self):
        with tempfile.TemporaryDirectory() as folder:
            file = pathlib.Path(folder) / "x.bench"
            file.write_text("INPUT(<b>x</b>)\nINPUT(__proto__)\nOUTPUT(</script>)\n</script> = AND(<b>x</b>, __proto__)\n")
            bench = boards.Bench(file)
            self.addCleanup(bench.close)
            state = bench.open_board().do({"act": "turn", "wire": "__proto__"})
        # Pairs, and not properties: a wire may have any name.
        self.assertEqual(state["patterns"][0]["seen"], [("__proto__", 0)])
        page = (pathlib.Path(server.__file__).parent / "page.js").read_text()
        self.assertNotRegex(page, r"innerHTML|outerHTML|insertAdjacentHTML|document\.write|eval\(|new Function")


class Words(unittest.TestCase):
    """Words that cannot be served."""

    def refused(self, *words):
        parser = argparse.ArgumentParser()
        bench.add_words(parser)
        given = parser.parse_args(words, argparse.Namespace(file=C17, narrow=None, budget=None, frames=None, program=None))
        with mock.patch.object(server, "Bench"), self.assertRaises((OSError, ValueError)) as caught:
            server.run(given)
        return str(caught.exception)

    def test_ports_and_addresses(self):
        self.assertIn("99999", self.refused("--port", "99999"))
        with socket.create_server(("127.0.0.1", 0)) as taken:
            port = str(taken.getsockname()[1])
            self.assertIn(port, self.refused("--port", port))


class Names(unittest.TestCase):
    """By which names a server may be called that takes requests from everywhere."""

    def test_everywhere(self):
        bench = mock.Mock(**{"shelf.addresses.return_value": {}})
        found = server.Server(bench, "0.0.0.0")
        self.addCleanup(found.server_close)
        port = found.port
        name = f"{socket.gethostname()}:{port}".upper()
        for host in (f"192.168.1.5:{port}", f"127.0.0.1:{port}", f"[fe80::1]:{port}", f"localhost:{port}", name):
            self.assertTrue(found.is_host(host), host)
        for host in (f"evil.example:{port}", f"1.2.3.4.evil.example:{port}", f"192.168.1.5:{port + 1}", "192.168.1.5", f":{port}"):
            self.assertFalse(found.is_host(host), host)


if __name__ == "__main__":
    unittest.main()
