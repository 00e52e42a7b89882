"""The commands that ask a server itself: `rowan info`, `rowan views`, `rowan ping` and `rowan stop`."""
from __future__ import annotations

import argparse
import time
from typing import Callable, Dict, Iterator, NamedTuple, Sequence

from .client import Client
from .core import ConnectionLost, Refused
from .options import add_server_options, connected, seconds
from .text import HEX, TEXT, spec_text

NOTES = """\
The server has to know version 3 of the wire. A server with tokens asks for one: --token-file says where it is.

Status: 0; 1 if the server refuses it, or doesn't admit the client; 2 for a bad command line; 3 if there is no
connection, the server ends it or doesn't answer, or standard output fails; 130 if it was interrupted.
"""
# in seconds: from one try of `rowan ping --wait` to the next
PAUSE = 0.1


class Command(NamedTuple):
    """A command: what it does, and the lines that it prints."""

    about: str
    lines: Callable[[Client, argparse.Namespace], Iterator[str]]


# ---- what is asked

def info_lines(index: Client, options: argparse.Namespace) -> Iterator[str]:
    for name, number in index.info().items():
        yield f"{name} {number}"


def views_lines(index: Client, options: argparse.Namespace) -> Iterator[str]:
    notation = TEXT if options.text else HEX
    for view in index.views():
        yield f"{view.number} {view.commits} {view.rows} {spec_text(view.spec, notation)}"


def ping_lines(index: Client, options: argparse.Namespace) -> Iterator[str]:
    yield f"commits {index.ping()}"


def stop_lines(index: Client, options: argparse.Namespace) -> Iterator[str]:
    yield f"commits {index.stop(options.now)}"


def answering(options: argparse.Namespace, at_most: float) -> Client:
    """A connection to a server that answers, which may take so long. Raises `ConnectionLost` and `Refused`."""
    index = connected(options, min(at_most, options.timeout or at_most))
    try:
        index.ping()
    except BaseException:
        index.close()
        raise
    return index


def connected_in(options: argparse.Namespace, wait: float) -> Client:
    """A connection to a server that answers, which is tried until this time is over. Raises `ConnectionLost` and
    `Refused`."""
    end = time.monotonic() + wait
    while True:
        try:
            return answering(options, max(end - time.monotonic(), PAUSE))
        except ConnectionLost as fault:
            if time.monotonic() + PAUSE >= end:
                raise ConnectionLost(f"no answer in {wait:g} seconds: {fault}") from fault
        time.sleep(PAUSE)


COMMANDS: Dict[str, Command] = {
    "info": Command("Prints what a server counts: a line NAME NUMBER for each of its numbers.", info_lines),
    "views": Command("Prints the views of a server: a line VIEW COMMITS ROWS SPEC for each, with the number of commits "
                     "at which it is, how many rows it has then, and what it is of.", views_lines),
    "ping": Command("Asks whether a server answers. Prints the number of commits.", ping_lines),
    "stop": Command("Ends a server, after it has answered what came. Prints the number of commits.", stop_lines),
}


# ---- the command line

def parser(name: str) -> argparse.ArgumentParser:
    made = argparse.ArgumentParser(prog=f"rowan {name}", description=COMMANDS[name].about, epilog=NOTES,
                                   formatter_class=argparse.RawDescriptionHelpFormatter)
    add_server_options(made, is_required=True)
    if name == "views":
        made.add_argument("--text", action="store_true", help="keys and columns are text, not hex")
    if name == "ping":
        made.add_argument("--wait", type=seconds, metavar="SECONDS",
                          help="tries again until the server answers, at most for this time")
    if name == "stop":
        made.add_argument("--now", action="store_true", help="the server answers nothing before it ends")
    return made


def main(name: str, arguments: Sequence[str], write_line: Callable[[str], None],
         complain: Callable[[str], None]) -> int:
    """Runs a command with these arguments; returns the status. Raises `ConnectionLost`, `BadReply` and OSError."""
    made = parser(name)
    options = made.parse_args(arguments)
    if options.ca is not None and not options.tls:
        made.error("--ca is for --tls")
    wait = vars(options).get("wait")
    try:
        with connected(options, options.timeout) if wait is None else connected_in(options, wait) as index:
            for line in COMMANDS[name].lines(index, options):
                write_line(line)
    except ConnectionLost:
        # (one is a refusal too)
        raise
    except Refused as refusal:
        complain(str(refusal))
        return 1
    return 0
