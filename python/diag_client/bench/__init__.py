"""A page for a technician with a board, a probe and a browser: `python3 -m diag_client bench FILE`.

How it is made:

- `layout` places boxes and wires in layers; `drawing` says which boxes and wires a device has, with its blocks open or closed.
- `records` is what is known of a board, as plain data, with the readers of what is typed and pasted.
- `boards` keeps a record for each tab, with undo, and asks one service for the answers. Sessions follow cases, so that a program that
  died, or a session that was given to another board, costs nothing but time.
- `shared` is that service: threads take turns, and a click comes before a search, and a search before advice.
- `server` is `http.server` with a token, and with checks of `Host` and `Origin`.
- index.html, page.js and page.css are the page. It keeps nothing of the case: each request is answered with the board's whole state,
  and all of it is drawn. Names of wires and parts are put in as text, never as HTML.
"""

from __future__ import annotations

import argparse


def add_words(parser: argparse.ArgumentParser) -> None:
    """What `bench` takes beside the file and what all commands take."""
    levels = "explanations that are not the cheapest may be asked for, up to a cost of C"
    parser.add_argument("--levels", type=int, metavar="C", help=levels)
    parser.add_argument("--listen", metavar="ADDRESS", default="127.0.0.1", help="take requests here, and not from this machine alone")
    parser.add_argument("--port", type=int, metavar="N", default=0, help="the port; else one that is free")
    parser.add_argument("--read-only", action="store_true", help="print a second address, for those who only watch")
    parser.add_argument("--no-browser", action="store_true", help="print the address alone, and open no browser")


def run(words: argparse.Namespace) -> int:
    """Serves the page until an interrupt, and gives the exit status."""
    # The other commands begin sooner without all that a server needs.
    from .server import run as serve

    return serve(words)
