"""The command line `rowan mirror`: its options, and how it ends."""
from __future__ import annotations

import argparse
import re
import sys
from typing import List, Optional, Sequence

from ..core import RowanspanError
from ..options import add_token_file, address, seconds
from .errors import BadMapping, NeedsDecision, SourceLost
from .following import follow
from .frames import FrameClient
from .place import NAME, owner_of
from .rows import RowMapping
from .source import Source
from .target import Keys, Target

USES = """\
rowan mirror postgres -p PORT --name NAME --dsn DSN --table TABLE --key TEMPLATE [--column COLUMN[:KIND]].. [OPTION ..]
       rowan mirror etcd -p PORT --name NAME --url URL --prefix PREFIX [--value KIND] [OPTION ..]"""
ABOUT = """\
Keeps rows of a server as a table of PostgreSQL, or the keys of etcd with a prefix, has them, until it is ended. A view
of these rows is exact at a position of the source that a reader can ask for (docs/MIRRORS.md).
"""
NOTES = """\
TEMPLATE is text with columns in braces: {c} is text, {c:08} eight digits, {c:int} eight bytes in the order of the
numbers. It begins with text, and has the whole primary key. KIND is uint (the default), int (plus 2^63), decN and sdecN
(a decimal number times 10^N, without and with a sign), bool, text (up to 64 bytes) or cut (the first 64 bytes). The
first --column is column 0. NULL is empty bytes, and 0 in a sum.

Status: 1 if somebody has to decide; 2 for a bad command line; 3 if the server refuses, or there is no connection to it;
4 if there is none to the source; 130 if it was interrupted. After 3 and 4 another start helps. It may be killed at any
moment: the next start continues, or copies all rows if it has to.
"""
SERVER, SOURCE = 3, 4


# ---- the command line

def name(word: str) -> str:
    """The name of a mirror."""
    if not re.fullmatch(NAME, word):
        raise argparse.ArgumentTypeError("expected 1 to 50 of a to z, 0 to 9 and _")
    return word


def add_common(made: argparse.ArgumentParser) -> None:
    made.add_argument("-p", "--port", type=address, required=True,
                      help="the server's port, or unix:PATH for its Unix socket")
    made.add_argument("--host", default="127.0.0.1", help="the server's address (127.0.0.1)")
    add_token_file(made)
    made.add_argument("--name", type=name, required=True,
                      help="the mirror's name: each mirror of a server has another, and so has each of a PostgreSQL")
    made.add_argument("--from", dest="low", default="", metavar="KEY", help="mirrors only the keys from this one on")
    made.add_argument("--to", dest="high", metavar="KEY", help="mirrors only the keys before this one")
    made.add_argument("--settle", type=seconds, default=0.2, metavar="SECONDS",
                      help="for how long nobody may have written the position before it begins (0.2)")
    made.add_argument("--timeout", type=seconds, default=60.0, metavar="SECONDS",
                      help="how long an answer of the server may take (60)")


def parser() -> argparse.ArgumentParser:
    made = argparse.ArgumentParser(prog="rowan mirror", usage=USES, description=ABOUT, epilog=NOTES,
                                   formatter_class=argparse.RawDescriptionHelpFormatter)
    kinds = made.add_subparsers(dest="kind", required=True, metavar="SOURCE", help="postgres or etcd")
    postgres = kinds.add_parser("postgres", prog="rowan mirror postgres", epilog=NOTES,
                                formatter_class=argparse.RawDescriptionHelpFormatter)
    add_common(postgres)
    postgres.add_argument("--dsn", required=True, help="the source, as libpq reads it, such as service=shop")
    postgres.add_argument("--table", required=True, help="the table, as SQL has it")
    postgres.add_argument("--key", required=True, metavar="TEMPLATE",
                          help="the keys of the server, such as 'orders/{customer}/{id:08}'")
    postgres.add_argument("--column", action="append", default=[], metavar="COLUMN[:KIND]",
                          help="a column of the table; may be repeated")
    etcd = kinds.add_parser("etcd", prog="rowan mirror etcd", epilog=NOTES,
                            formatter_class=argparse.RawDescriptionHelpFormatter)
    add_common(etcd)
    etcd.add_argument("--url", required=True, help="the source, such as http://127.0.0.1:2379")
    etcd.add_argument("--prefix", required=True, help="of the keys, which are the server's keys too")
    etcd.add_argument("--value", default="text", metavar="KIND",
                      help="what a value is, in column 0 (text); or json, an object whose fields --column names")
    etcd.add_argument("--column", action="append", default=[], metavar="FIELD[:KIND]",
                      help="a field of a value of JSON; may be repeated")
    return made


# ---- the program

def complain(why: str) -> None:
    print(f"rowan mirror: {why}", file=sys.stderr, flush=True)


def opened_postgres(options: argparse.Namespace) -> Source:
    """The table. Raises `BadMapping` and `SourceLost`."""
    mapping = RowMapping.read(options.key, options.column)
    try:
        from .postgres import PostgresSource
    except ModuleNotFoundError as fault:
        if fault.name != "psycopg2":
            raise
        raise BadMapping("the Python package psycopg2 isn't installed: pip install 'rowanspan[postgres]', or Debian's "
                         "python3-psycopg2") from None
    return PostgresSource(options.dsn, options.table, mapping, options.name)


def opened_etcd(options: argparse.Namespace) -> Source:
    """The keys of etcd. Raises `BadMapping`."""
    from .etcd import EtcdSource, value_reader

    return EtcdSource(options.url, options.prefix, value_reader(options.value, options.column))


def words_of(options: argparse.Namespace) -> List[str]:
    """What has to be the same for a mirror to continue."""
    own = [options.key] if options.kind == "postgres" else [options.prefix, options.value]
    return [options.kind, *own, *options.column, f"{options.low!r} {options.high!r}"]


def run(options: argparse.Namespace) -> None:
    """Mirrors, until an exception ends it."""
    source = opened_postgres(options) if options.kind == "postgres" else opened_etcd(options)
    try:
        owner = owner_of(source.identity, *words_of(options))
        high: Optional[bytes] = None if options.high is None else options.high.encode()
        columns = len(options.column) if options.kind == "postgres" else max(1, len(options.column))
        with FrameClient(options.port, options.host, options.timeout, token=options.token) as index:
            target = Target(index, options.name, owner, Keys(source.prefix, options.low.encode(), high), columns)
            follow(source, target, options.settle, complain)
    finally:
        source.close()


def main(arguments: Sequence[str]) -> int:
    """Runs a mirror with these arguments, until it is ended; returns the status."""
    options = parser().parse_args(arguments)
    try:
        run(options)
    except NeedsDecision as fault:
        complain(str(fault))
        return 1
    except SourceLost as fault:
        complain(str(fault))
        return SOURCE
    except RowanspanError as fault:
        complain(f"the server: {fault}")
        return SERVER
    except KeyboardInterrupt:
        return 130
    raise AssertionError("a mirror ended without a cause")
