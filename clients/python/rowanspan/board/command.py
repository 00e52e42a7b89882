"""The command line `rowan board`: its options, how it begins, and how it ends."""
from __future__ import annotations

import argparse
import errno
import signal
import sys
from contextlib import contextmanager
from functools import partial
from typing import Callable, Iterator, List, Sequence, Tuple

from ..address import Address
from ..client import Client
from ..core import BadReply, ConnectionLost, RowanspanError, TooLong, ViewNo, ViewSpec
from ..options import add_token_file, address, port, seconds
from ..server import NotAllowed
from ..text import HEX, LONG, TEXT, BadLine, Notation, read_number, read_query
from ..wire import Build
from .guard import ADDRESS, Tokens
from .handler import BoardServer, Served
from .poller import Poller, lost_text
from .state import MAX_CARDS, Board, Card

USES = "rowan board -p PORT [--http PORT] [--view N].. [--build SPEC].. [OPTION ..]"
ABOUT = """\
Shows the standing views of a server in a browser, as they change: count, sums, first rows. It serves a page on
127.0.0.1, and writes its address on standard output. The page can build views and drop them.
"""
NOTES = """\
The board shows all views of the server, if the server lists them (its `info` counts its views). Else it shows those that
it built, by --build or by the form on the page, and those that --view or the form names, whose specification it doesn't
know. At its end it drops the views that it built, and no others.

SPEC is that of a line of rowan: `range LO HI TEST` or `prefix KEY TEST`, in hex, or with --text as text (rowan --help).
The board has two connections to the server, however many browsers look.

Status: 1 if a view that is named isn't there, or can't be built; 2 for a bad command line; 3 if there is no connection
to the server at the start, it doesn't admit the board, or the port of --http is taken; 130 if it was interrupted. A
server that is lost later is waited for.
"""


class Ended(Exception):
    """A signal asks for the end."""


# ---- the command line

def checked_word(word: str, most: int, least: int = 0) -> int:
    """A number that a word says. Raises `ArgumentTypeError`."""
    try:
        number = read_number(word, most)
    except BadLine as fault:
        raise argparse.ArgumentTypeError(str(fault)) from None
    if number < least:
        raise argparse.ArgumentTypeError(f"expected a number from {least} to {most}")
    return number


def parser() -> argparse.ArgumentParser:
    made = argparse.ArgumentParser(prog="rowan board", usage=USES, description=ABOUT, epilog=NOTES,
                                   formatter_class=argparse.RawDescriptionHelpFormatter)
    made.add_argument("-p", "--port", type=address, required=True,
                      help="the server's port, or unix:PATH for its Unix socket")
    made.add_argument("--host", default="127.0.0.1", help="the server's address (127.0.0.1)")
    add_token_file(made)
    made.add_argument("--http", type=port, default=8080, metavar="PORT",
                      help="the port at which browsers find the board (8080); 0 takes any free one")
    made.add_argument("--view", type=lambda word: checked_word(word, LONG, 1), action="append", default=[], metavar="N",
                      help="shows the view of this number; may be repeated")
    made.add_argument("--build", action="append", default=[], metavar="SPEC",
                      help="builds a view and shows it; may be repeated")
    made.add_argument("--text", action="store_true", help="keys and columns of --build are text, not hex")
    made.add_argument("--rows", type=lambda word: checked_word(word, 100, 1), default=10, metavar="N",
                      help="how many rows of each view are shown, 1 to 100 (10)")
    made.add_argument("--columns-as", choices=("text", "hex", "number"), default="text",
                      help="how columns are shown at first (text); the page has a switch")
    made.add_argument("--timeout", type=seconds, default=10.0, metavar="SECONDS",
                      help="how long an answer of the server may take (10)")
    return made


def read_spec(made: argparse.ArgumentParser, words: str, notation: Notation) -> ViewSpec:
    """What --build asks for. Words that don't read end the program with status 2."""
    try:
        query = read_query(f"build {words}", notation)
    except (BadLine, TooLong) as fault:
        # the message counts `build` as the first word, as it is in a line of the shell
        made.error(f"--build {words!r}, as a line of rowan: {fault}")
    assert isinstance(query, Build)
    return query.spec


# ---- the program

def complain(why: str) -> None:
    print(f"rowan board: {why}", file=sys.stderr, flush=True)


@contextmanager
def ending_by_signals() -> Iterator[List[int]]:
    """Raises `Ended` when SIGTERM or SIGINT comes, once, and notes which it was."""
    noted: List[int] = []

    def note(number: int, _: object) -> None:
        # (what comes during the end doesn't interrupt it)
        if not noted:
            noted.append(number)
            raise Ended()

    before = {number: signal.signal(number, note) for number in (signal.SIGTERM, signal.SIGINT)}
    try:
        yield noted
    finally:
        for number, handler in before.items():
            signal.signal(number, handler)


def bound(given: int) -> BoardServer:
    """The HTTP server, which listens but doesn't answer yet. Raises OSError with a message for people."""
    try:
        return BoardServer(given)
    except OSError as fault:
        is_taken = fault.errno == errno.EADDRINUSE
        why = "is taken: --http names another" if is_taken else f"can't be used: {fault.strerror}"
        raise OSError(f"port {given} of {ADDRESS} {why}") from fault


def fill(poller: Poller, views: Sequence[int], specs: Sequence[ViewSpec], words: Sequence[str]) -> None:
    """Adds the views of the command line. Raises `RowanspanError`, whose text says which view it was."""
    named: List[Tuple[str, Callable[[], Card]]] = [
        *((f"--view {number}", partial(poller.watch, ViewNo(number))) for number in views),
        *((f"--build {word!r}", partial(poller.build, spec)) for word, spec in zip(words, specs))]
    for label, add in named:
        try:
            add()
        except (ConnectionLost, BadReply):
            raise
        except RowanspanError as fault:
            raise RowanspanError(f"{label}: {fault}") from fault


def start(poller: Poller) -> None:
    """Connects the poller, and starts it. Raises `ConnectionLost`."""
    try:
        poller.start()
    except NotAllowed as fault:
        raise ConnectionLost(f"the server doesn't admit the board: {fault}") from fault


def serve(options: argparse.Namespace, specs: Sequence[ViewSpec], server: BoardServer) -> int:
    """Shows the board until a signal ends it; returns the status."""
    board = Board(str(Address(options.port, options.host)), options.rows, Tokens())
    poller = Poller(board, lambda: Client(options.port, options.host, options.timeout, token=options.token))
    try:
        start(poller)
        fill(poller, options.view, specs, options.build)
        server.served = Served(board, poller, options.columns_as)
        print(f"board at http://{ADDRESS}:{server.server_port}/", flush=True)
        server.serve_forever()
    except (ConnectionLost, BadReply) as fault:
        complain(lost_text(fault))
        return 3
    except RowanspanError as fault:
        complain(str(fault))
        return 1
    finally:
        board.close()
        poller.end()
    return 0


def interrupted(noted: Sequence[int]) -> int:
    """The status after a signal, as the shell has it."""
    return 128 + noted[0]


def main(arguments: Sequence[str]) -> int:
    """Runs the board with these arguments; returns the status."""
    made = parser()
    options = made.parse_args(arguments)
    if len(options.view) + len(options.build) > MAX_CARDS:
        made.error(f"the board shows at most {MAX_CARDS} views")
    specs = [read_spec(made, words, TEXT if options.text else HEX) for words in options.build]
    with ending_by_signals() as noted:
        try:
            with bound(options.http) as server:
                return serve(options, specs, server)
        except Ended:
            return interrupted(noted)
        except OSError as fault:
            complain(str(fault))
            return 3
