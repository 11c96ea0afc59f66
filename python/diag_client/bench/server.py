"""The page over HTTP, for the people at this machine and nobody else.

Who has the address may use it: a random token is the first word of every path, and the second is the board's own id, which no other
board can know. `Host` must be a name of this server, so that no name that leads here by a trick of DNS is taken, and a request that
changes anything must come from the page itself (`Origin`). No path is ever a path of a file: the page's three files are in a table.
"""

from __future__ import annotations

import argparse
import contextlib
import html
import http.server
import importlib.resources
import io
import ipaddress
import json
import os
import secrets
import socket
import socketserver
import sys
import threading
import time
import webbrowser
from collections.abc import Iterator
from typing import Any

from ..errors import DiagError
from ..progress import options_in
from .boards import Bench, Board, Gone
from .records import Bad

MOST_BODY = 1024 * 1024
# So many seconds a request may take to come, and its answer to go.
PATIENCE = 10.0
# So many requests are served at once; more are turned away.
MOST_AT_ONCE = 200
SCRIPTS = ("page.js", "chips.js")
FILES = {"": ("index.html", "text/html"), "page.css": ("page.css", "text/css")} | {name: (name, "text/javascript") for name in SCRIPTS}
HEADERS = {
    "Content-Security-Policy": "default-src 'none'; script-src 'self'; style-src 'self'; connect-src 'self'; img-src data:; "
    "base-uri 'none'; form-action 'none'; frame-ancestors 'none'",
    "X-Content-Type-Options": "nosniff",
    "Referrer-Policy": "no-referrer",
    "Cross-Origin-Opener-Policy": "same-origin",
    "Cross-Origin-Resource-Policy": "same-origin",
    "Cache-Control": "no-store",
}
# So many seconds a thread that answers a click waits for one that looks for advice or lays out a drawing: a fifth of Python's own.
SWITCH = 0.001
EVERYWHERE = ("0.0.0.0", "::", "")


class Refusal(Exception):
    """A request that is not served, with its status."""

    def __init__(self, status: int, text: str) -> None:
        super().__init__(text)
        self.status = status


class Timed(io.RawIOBase):
    """What comes from a connection until a moment: one who sends a byte now and then holds nobody up for long."""

    def __init__(self, connection: socket.socket) -> None:
        self._connection = connection
        self._until = time.monotonic() + PATIENCE

    def readable(self) -> bool:
        return True

    def readinto(self, buffer: Any) -> int:
        left = self._until - time.monotonic()
        if left <= 0:
            raise TimeoutError
        self._connection.settimeout(left)
        return self._connection.recv_into(buffer)


class Server(http.server.ThreadingHTTPServer):
    """The server of one bench. `token` is for those who work, and `watch_token`, if there is one, for those who watch."""

    daemon_threads = True
    request_queue_size = 128

    def __init__(self, bench: Bench, listen: str = "127.0.0.1", port: int = 0, read_only: bool = False) -> None:
        self.bench = bench
        self.address_family = socket.AF_INET6 if ":" in listen else socket.AF_INET
        # The addresses stay as they were, so that a page that is open goes on once the bench is started again.
        kept = bench.shelf.addresses()
        self.token = kept.get("token") or secrets.token_urlsafe(18)
        self.watch_token = (kept.get("watch") or secrets.token_urlsafe(18)) if read_only else None
        # For the browser that is opened here: others on this machine see its command line, so this word leads in once.
        self.door: str | None = secrets.token_urlsafe(18)
        folder = importlib.resources.files(__package__)
        self.files = {name: (folder.joinpath(file).read_bytes(), kind) for name, (file, kind) in FILES.items()}
        self._room = threading.BoundedSemaphore(MOST_AT_ONCE)
        try:
            super().__init__((listen, port or int(kept.get("port", 0))), Handler)
        except (OSError, ValueError, OverflowError):
            super().__init__((listen, port), Handler)
        self.listen = listen
        self.port = self.server_address[1]
        words = {"port": str(self.port), "token": self.token, "watch": self.watch_token or kept.get("watch", "")}
        bench.shelf.keep("addresses", json.dumps(words))
        self.names = {"127.0.0.1": {"127.0.0.1", "localhost"}, "::1": {"[::1]", "localhost"}}.get(listen, {listen, f"[{listen}]"})
        if listen in EVERYWHERE:
            self.names = {socket.gethostname().lower(), "localhost"}

    def server_bind(self) -> None:
        """As its parent, but without asking a name server who we are."""
        socketserver.TCPServer.server_bind(self)
        self.server_name, self.server_port = str(self.server_address[0]), self.server_address[1]

    def is_host(self, host: str) -> bool:
        """Whether a `Host` names this server. An address in digits cannot be made to lead elsewhere, a name can."""
        name, sign, port = host.lower().rpartition(":")
        if not sign or port != str(self.port):
            return False
        if name in self.names:
            return True
        if self.listen not in EVERYWHERE:
            return False
        try:
            ipaddress.ip_address(name.strip("[]"))
        except ValueError:
            return False
        return True

    def enters(self, path: str) -> bool:
        """Whether a path is the door, which is open once."""
        with self.bench.lock:
            is_door = self.door is not None and secrets.compare_digest(path.encode("utf-8", "replace"), f"/{self.door}/".encode())
            if is_door:
                self.door = None
            return is_door

    def url(self, token: str) -> str:
        """The address that people are given."""
        name = socket.gethostname() if self.listen in EVERYWHERE else f"[{self.listen}]" if ":" in self.listen else self.listen
        return f"http://{name}:{self.port}/{token}/"

    def process_request(self, request: Any, client_address: Any) -> None:
        """A thread for each, and not more than so many."""
        if not self._room.acquire(blocking=False):
            self.shutdown_request(request)
            return
        try:
            super().process_request(request, client_address)
        except BaseException:
            self._room.release()
            raise

    def process_request_thread(self, request: Any, client_address: Any) -> None:
        """One request."""
        try:
            super().process_request_thread(request, client_address)
        finally:
            self._room.release()

    def handle_error(self, request: Any, client_address: Any) -> None:
        """A connection that breaks is nobody's error; all else is said, without the address that was asked."""
        error = sys.exc_info()[1]
        if not isinstance(error, (OSError, TimeoutError)):
            print(f"diag-bench: {type(error).__name__}: {error}", file=sys.stderr)


class Handler(http.server.BaseHTTPRequestHandler):
    """One request."""

    server: Server
    server_version = "diag-bench"
    sys_version = ""

    def setup(self) -> None:
        """As its parent, with an end to all patience."""
        super().setup()
        self.rfile = io.BufferedReader(Timed(self.connection))

    def do_GET(self) -> None:
        """The page and its files."""
        with self._answering():
            self._check()
            if self.server.enters(self.path):
                self._send(303, b"", "text/plain", Location=f"/{self.server.token}/")
                return
            board_id, name, watching = self._path()
            if not board_id and not name:
                board = self.server.bench.last_used() if watching else self.server.bench.open_board()
                self._send(303, b"", "text/plain", Location=f"{board.watch_id if watching else board.id}/")
                return
            if board_id:
                self.server.bench.board(board_id, watching)
            if name not in self.server.files or bool(board_id) != (name == ""):
                raise Refusal(404, "there is no such page")
            self._send(200, *self.server.files[name])

    def do_POST(self) -> None:
        """What the page asks: each answer is the board's whole state, or a drawing."""
        with self._answering():
            self._check()
            board_id, name, watching = self._path()
            if self.headers.get_all("Origin") != [f"http://{self.headers['Host']}"]:
                raise Refusal(403, "this request does not come from the page")
            act = self._body()
            board = self.server.bench.board(board_id, watching)
            if name == "drawing":
                self._json(200, self._drawing(board, act))
            elif name == "do":
                self._do(board, act, watching)
            else:
                raise Refusal(404, "there is no such page")

    def _do(self, board: Board, act: dict[str, Any], watching: bool) -> None:
        if watching and act.get("act") != "state":
            raise Refusal(403, "this address is for watching: nothing can be changed here")
        if act.get("act") == "state" and act.get("version") == board.version:
            self._json(200, {"same": True})
            return
        try:
            status, state = 200, board.do(act)
        except Bad as error:
            status, state = 422, board.state() | {"error": str(error)}
        own: dict[str, Any] = {"read_only": watching, "watch": self._watch_path(board, watching)}
        if not watching:
            shelf = board.bench.shelf
            own |= {"saved": str(shelf.place(board.id)), "unsaved": shelf.why, "earlier": shelf.earlier() if board.is_empty else []}
        self._json(status, state | own)

    def _watch_path(self, board: Board, watching: bool) -> str | None:
        token = self.server.watch_token
        return None if watching or token is None else f"/{token}/{board.watch_id}/"

    def _drawing(self, board: Board, act: dict[str, Any]) -> Any:
        bench = board.bench
        wanted = act.get("open")
        is_open = bench.scene.open_at_first if not isinstance(wanted, list) else frozenset(path for path in wanted if isinstance(path, str))
        drawing = bench.drawing(is_open, board.cone() if act.get("wrong") is True else None)
        kinds = bench.scene.device.blocks
        own: dict[str, Any] = {"inputs": bench.scene.inputs, "outputs": bench.scene.outputs, "chips": bench.scene.chips}
        own |= {"frames": bench.frames, "has_levels": bench.has_levels}
        named = {"title": bench.title, "others": bench.other_names, "open": sorted(is_open & kinds.keys()), "is_design": bool(kinds)}
        return drawing | own | named

    def _check(self) -> None:
        """Refuses what comes by another name, or from another page."""
        if not self.server.is_host(self._only("Host")):
            raise Refusal(403, "this is not the address of this page: use the one that the program printed")
        origins: list[str] = self.headers.get_all("Origin") or []
        if origins and origins != [f"http://{self.headers['Host']}"]:
            raise Refusal(403, "this request comes from another page")

    def _path(self) -> tuple[str, str, bool]:
        """The board's id, the name of what is asked, and whether the asker only watches. Nothing is decoded: no path is a file's."""
        words = self.path.split("?")[0].split("/")
        watching = self.server.watch_token is not None and _same(words[1:2], self.server.watch_token)
        if words[0] or not (watching or _same(words[1:2], self.server.token)):
            raise Refusal(403, "the address has no token, or that of an earlier run: use the whole address that the program printed")
        match words[2:]:
            case [name] if name in FILES:
                return "", name, watching
            case [board_id, name] if board_id:
                return board_id, name, watching
        raise Refusal(404, "there is no such page")

    def _only(self, name: str) -> str:
        values: list[str] = self.headers.get_all(name) or []
        if len(values) != 1:
            raise Refusal(400, f"the request has not one {name}")
        return values[0]

    def _body(self) -> dict[str, Any]:
        if self.headers.get("Transfer-Encoding") is not None:
            raise Refusal(411, "the request does not say how long it is")
        if self._only("Content-Type").split(";")[0].strip() != "application/json":
            raise Refusal(415, "the request is not JSON")
        length = self._only("Content-Length")
        if not (length.isascii() and length.isdigit()) or len(length) > 9 or int(length) > MOST_BODY:
            raise Refusal(413, f"a request has at most {MOST_BODY} bytes")
        body = self.rfile.read(int(length))
        try:
            act = json.loads(body)
        except (ValueError, RecursionError) as error:
            raise Refusal(400, "the request is not JSON") from error
        if len(body) != int(length) or not isinstance(act, dict):
            raise Refusal(400, "the request is not a JSON object")
        return act

    @contextlib.contextmanager
    def _answering(self) -> Iterator[None]:
        """What goes wrong in the block is answered in plain words."""
        try:
            yield
        except Refusal as error:
            self._refuse(error.status, str(error))
        except Bad as error:
            self._refuse(422, str(error))
        except Gone:
            self._refuse(404, "there is no such board here. Save the case, open the address that the program printed, and load it.")
        except DiagError as error:
            self._refuse(503, f"the program does not answer: {error}")

    def _refuse(self, status: int, why: str) -> None:
        """Says why: a page to who looks at one, and else JSON."""
        if self.command != "GET":
            self._json(status, {"error": why})
            return
        link = '<p><a href="..">Open a new board</a></p>' if status == 404 and self.path.count("/") == 3 else ""
        words = f"<!doctype html><html lang=en><title>diag bench</title><h1>This page is not here</h1><p>{html.escape(why)}</p>{link}"
        self._send(status, words.encode("utf-8", "replace"), "text/html")

    def _json(self, status: int, value: Any) -> None:
        self._send(status, json.dumps(value, separators=(",", ":")).encode("ascii"), "application/json")

    def _send(self, status: int, body: bytes, kind: str, **headers: str) -> None:
        self.connection.settimeout(PATIENCE)
        self.send_response(status)
        for name, value in {**HEADERS, **headers, "Content-Type": f"{kind}; charset=utf-8", "Content-Length": str(len(body))}.items():
            self.send_header(name, value)
        self.end_headers()
        self.wfile.write(body)

    def send_error(self, code: int, message: str | None = None, explain: str | None = None) -> None:
        """What is not understood is refused in words that repeat nothing of it."""
        self._json(int(code), {"error": "the request is not understood"})

    def log_message(self, format: str, *args: Any) -> None:
        """Nothing is logged: the address has the token in it."""


def _same(words: list[str], token: str) -> bool:
    return bool(words) and secrets.compare_digest(words[0].encode("utf-8", "replace"), token.encode())


def _listening(bench: Bench, words: argparse.Namespace) -> Server:
    try:
        return Server(bench, words.listen, words.port, words.read_only)
    except OSError as error:
        why = f"no requests can be taken at {words.listen}, port {words.port}: {error.strerror}"
        raise OSError(f"{why}; try another --listen or --port") from error


def run(words: argparse.Namespace) -> int:
    """Serves the page until an interrupt, and gives the exit status."""
    if not 0 <= words.port <= 65535:
        raise ValueError(f"--port is from 0 to 65535, not {words.port}")
    bench = Bench(words.file, **options_in(words))
    sys.setswitchinterval(SWITCH)
    try:
        with _listening(bench, words) as server:
            print(f"{bench.title}\nOpen this address: {server.url(server.token)}", flush=True)
            if server.watch_token is not None:
                print(f"Who only watches opens this one: {server.url(server.watch_token)}", flush=True)
            if words.listen not in ("127.0.0.1", "::1"):
                print("Everyone who has the address may use it, and what is sent is not encrypted.", flush=True)
            print("Ctrl-C ends it.", flush=True)
            if not words.no_browser and (os.environ.get("DISPLAY") or os.environ.get("WAYLAND_DISPLAY")):
                webbrowser.open(server.url(server.door or server.token))
            with contextlib.suppress(KeyboardInterrupt):
                server.serve_forever()
            if saved := sum(not board.is_empty for board in bench.boards.values()):
                where = bench.shelf.why or f"saved in {bench.shelf.folder}. They are there again when it is started again"
                print(f"{saved} board{'s' * (saved != 1)}: {where}.", flush=True)
    finally:
        with contextlib.suppress(DiagError):
            bench.close()
    return 0
