"""Options of the command lines: the address of the server, how it is connected to, and the token that it asks for."""
from __future__ import annotations

import argparse
from pathlib import Path
from typing import Optional

from .address import UNIX, Port
from .client import Client

# the first words of the lines of a server's own file of tokens
ROLES = (b"read", b"write", b"all")
MAX_TOKEN_FILE = 1 << 16


def port(word: str) -> int:
    """The number of a port."""
    value = int(word)
    if not 0 <= value <= 65535:
        raise ValueError(word)
    return value


def address(word: str) -> Port:
    """The number of a port, or `unix:` and the path of a socket."""
    if word.startswith(UNIX) and len(word) > len(UNIX):
        return word
    return port(word)


def seconds(word: str) -> float:
    """A time to wait."""
    value = float(word)
    if not 0 < value < float("inf"):
        raise ValueError(word)
    return value


def token_file(word: str) -> bytes:
    """The token of a file: its first line that isn't empty; if that is ROLE TOKEN, as in a server's file, what follows
    the role. Raises `ArgumentTypeError`."""
    try:
        with open(word, "rb") as file:
            lines = file.read(MAX_TOKEN_FILE).splitlines()
    except (OSError, ValueError) as fault:
        raise argparse.ArgumentTypeError(f"can't be read: {fault}") from None
    line = next(filter(None, lines), b"")
    role, _, rest = line.partition(b" ")
    token = rest if role in ROLES else line
    if not token:
        raise argparse.ArgumentTypeError(f"{word} has no token in its first line")
    return token


def add_token_file(made: argparse.ArgumentParser) -> None:
    made.add_argument("--token-file", type=token_file, metavar="FILE", dest="token",
                      help="a file whose first line is the token that the server asks for, or ROLE TOKEN")


def add_server_options(made: argparse.ArgumentParser, is_required: bool) -> None:
    """The options of a connection to a server."""
    made.add_argument("-p", "--port", type=address, required=is_required,
                      help="asks the server at this port, or at the Unix socket unix:PATH")
    made.add_argument("--host", help="the server's address (127.0.0.1)")
    made.add_argument("--timeout", type=seconds, metavar="SECONDS",
                      help="how long an answer of the server may take (without end)")
    made.add_argument("--tls", action="store_true", help="speaks TLS, to a proxy in front of the server")
    made.add_argument("--ca", type=Path, metavar="FILE",
                      help="the certificates that a server's is signed by (those of the system); with --tls")
    add_token_file(made)


def connected(options: argparse.Namespace, timeout: Optional[float]) -> Client:
    """A connection to the server that these options name. Raises `ConnectionLost`, `NotAllowed` and OSError."""
    tls = None
    if options.tls:
        import ssl

        tls = ssl.create_default_context(cafile=options.ca)
    return Client(options.port, options.host or "127.0.0.1", timeout, tls, token=options.token)
