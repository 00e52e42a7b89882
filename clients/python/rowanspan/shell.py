"""The shell `rowan`: one line of words, or the lines of standard input, over a server or an index of its own."""
from __future__ import annotations

import argparse
import os
import sys
from typing import TYPE_CHECKING, Any, Callable, Iterable, List, Optional, Sequence

from .core import BadColumn, BadReply, ConnectionLost, NoLibrary, Refused, TooLong
from .options import add_server_options, connected
from .places import third_party, version
from .reads import CountRange, GetMany, GetRangeBack, RowsAt
from .server_command import COMMANDS
from .server_command import main as ask_server
from .serving import NoServer, read_folder, serve
from .text import HEX, TEXT, BadLine, Notation, outcome_line, read_query
from .wire import (Build, Get, GetRange, Outcome, Put, PutIf, Query, Remove, Reply, Tidy, ViewDrop, ViewRead,
                   spelled_query)

if TYPE_CHECKING:
    from .embedded import Index

USES = """\
rowan [-p PORT [OPTION ..] | --embedded [--columns N]] [--text] [WORD ..]
       rowan serve [OPTION ..]
       rowan folder show | verify | rows FOLDER
       rowan folder cut FOLDER --at COMMIT
       rowan info | views [--text] | ping [--wait SECONDS] | stop [--now] -p PORT [OPTION ..]
       rowan board -p PORT [OPTION ..]
       rowan mirror postgres | etcd -p PORT [OPTION ..]
       rowan --version | --licenses"""

LINES = """\
`rowan serve` runs the server mtserve, with the options of mtserve (`rowan serve --help`), and `rowan folder` the program
mtfolder, which reads a server's data folder (`rowan folder --help`). `rowan info` prints what a server counts, `rowan
views` its views, `rowan ping` whether it answers, and `rowan stop` ends it (`rowan info --help`, ..). `rowan board` shows
the views of a server in a browser (`rowan board --help`). `rowan mirror` keeps rows of a server as another system has them
(`rowan mirror --help`).

Lines, whose words are separated by one space, and their answers:
  get KEY COLS                   done FROM TO row VERSION VALUES, or done FROM TO absent
  put KEY SETS                   done FROM TO put COMMIT
  putif KEY VERSION SETS         the same if the row is of this version (0: no row is there), else refused 16 VERSION
  remove KEY                     done FROM TO removed COMMIT, or done FROM TO absent
  range START LIMIT COLS         done FROM TO rows K, and K times KEY:VERSION:VALUES
  back END LIMIT COLS            the same, of the last rows before END, the greatest key first (END may be none)
  gets KEYS COLS                 found AT K, and K times VERSION:VALUES or none, all of one moment
  count START END MOST           done FROM TO count N (END may be none)
  tidy KEY                       done FROM TO tidied a, b, c, d or none
  build range LO HI TEST         done FROM TO built VIEW (HI may be none)
  build prefix KEY TEST          the same
  view VIEW FLOOR START LIMIT    view AT COUNT SUMS K, and K rows as above
  drop VIEW                      dropped

KEY, START, END, LO, HI and BYTES are hex, - is empty; with --text they are text, in which \\xNN is any byte. KEYS are
keys joined by commas. COLS is all, or numbers of columns joined by commas. SETS is COL=BYTES joined by commas, or -.
TEST is any, equals COL BYTES or atleast COL NUMBER. FROM and TO are the numbers of commits at the call's begin and end,
AT that of a moment. A refusal is refused N, for some causes followed by a number. If a line can't be read, or doesn't
fit the wire, the answer is bad line, and standard error says why: the line's number, the word, and what was expected.

Status: 0; 1 if a line was bad; 2 for a bad command line; 3 if there is no connection, it breaks, or the server doesn't
admit the client, if the library or the server isn't there, or if standard input or output fails; 130 if it was
interrupted.
"""


# no line that reads has as many bytes as this; what is more is read, and not kept
MAX_LINE = 1 << 20


# ---- the command line

class Licences(argparse.Action):
    """The option that prints the licences, and ends the program."""

    def __call__(self, parser: argparse.ArgumentParser, *_: object) -> None:
        write_line("Rowanspan: MIT OR Apache-2.0")
        path = third_party()
        write_line("THIRD-PARTY isn't here: scripts/release makes it" if path is None
                   else "\n" + path.read_text(encoding="utf-8").rstrip("\n"))
        parser.exit()


def parser() -> argparse.ArgumentParser:
    made = argparse.ArgumentParser(
        prog="rowan", usage=USES, description="Asks an index of Rowanspan, line by line.", epilog=LINES,
        formatter_class=argparse.RawDescriptionHelpFormatter)
    add_server_options(made, is_required=False)
    made.add_argument("--embedded", action="store_true",
                      help="asks an index in this process, which is empty at first and ends with it")
    made.add_argument("--columns", type=int, metavar="N", help="how many columns the index of this process has (1)")
    made.add_argument("--text", action="store_true", help="keys and columns are text, not hex")
    made.add_argument("--version", action="version", version=f"rowan {version()}")
    made.add_argument("--licenses", action=Licences, nargs=0,
                      help="show the licences of Rowanspan, and the notices of what is linked into it, and exit")
    made.add_argument("words", nargs=argparse.REMAINDER, metavar="WORD",
                      help="one line, after all options; without it the lines of standard input are answered")
    return made


def parsed(words: Sequence[str]) -> argparse.Namespace:
    """The options of a command line. If they don't fit each other, ends the program with status 2."""
    made = parser()
    options = made.parse_args(words)
    if options.embedded == (options.port is not None):
        made.error("one of -p PORT and --embedded is needed")
    if options.embedded and (options.tls or any(
            one is not None for one in (options.host, options.timeout, options.token))):
        made.error("--host, --timeout, --tls and --token-file are for a server")
    if options.ca is not None and not options.tls:
        made.error("--ca is for --tls")
    if options.columns is not None and not options.embedded:
        made.error("--columns is for --embedded")
    return options


# ---- what is asked

Ask = Callable[[Query[Any]], Outcome]


def ask_embedded(index: Index, query: Query[Any]) -> Outcome:
    """Asks an index in this process what a client asks a server. Raises `TooLong` for what doesn't fit the wire."""
    spelled_query(query)
    begin = index.commits()
    try:
        value = value_of(index, query)
    except Refused as refusal:
        return refusal
    is_of_view = isinstance(query, (ViewRead, ViewDrop))
    return Reply(value) if is_of_view else Reply(value, begin, index.commits())


def value_of(index: Index, query: Query[Any]) -> Any:
    """What an index in this process returns for a query."""
    if isinstance(query, Get):
        return index.get(query.key, None, query.columns)
    if isinstance(query, Put):
        return index.put(query.key, query.sets)
    if isinstance(query, PutIf):
        return index.put_if(query.key, query.sets, query.version)
    if isinstance(query, Remove):
        return index.remove(query.key)
    if isinstance(query, GetRange):
        return index.first(query.start, query.limit, query.columns)
    if isinstance(query, GetRangeBack):
        return index.last(query.stop, query.limit, query.columns)
    if isinstance(query, CountRange):
        return index.count(query.start, query.stop, most=query.most)
    if isinstance(query, GetMany):
        return RowsAt(index.commits(), index.get_many(query.keys, query.columns))
    if isinstance(query, Tidy):
        return index.tidy(query.key)
    if isinstance(query, Build):
        return index.build(query.spec).number
    if isinstance(query, ViewRead):
        return index.view(query.view).page(query.floor, query.start, query.limit)
    assert isinstance(query, ViewDrop)
    return index.view(query.view).drop()


# ---- lines

def answer_all(ask: Ask, lines: Iterable[str], notation: Notation) -> int:
    """Answers lines one by one; returns the status."""
    status = 0
    for number, line in enumerate(lines, 1):
        try:
            if len(line) >= MAX_LINE:
                raise BadLine(f"it has {MAX_LINE} bytes or more")
            query = read_query(line, notation)
            said = outcome_line(query, ask(query), notation)
        except (BadLine, TooLong) as fault:
            status, said = 1, "bad line"
            complain(f"line {number}: {fault}")
        write_line(said)
    return status


def complain(why: str) -> None:
    """Writes a message to standard error. If that fails, there is nobody to inform."""
    try:
        os.write(2, f"rowan: {why}\n".encode("utf-8", "backslashreplace"))
    except OSError:
        pass


def write_line(line: str) -> None:
    """Writes a line to standard output at once, past the interpreter's own buffer, which would fail once more at its
    end."""
    rest = f"{line}\n".encode()
    while rest:
        rest = rest[os.write(1, rest):]


def lines_of_input() -> Iterable[str]:
    """The lines of standard input, without their line feeds. Of a line that is too long, its first bytes."""
    with open(0, "rb", closefd=False) as lines:
        while True:
            line = lines.readline(MAX_LINE)
            rest = line
            while len(rest) == MAX_LINE and not rest.endswith(b"\n"):
                rest = lines.readline(MAX_LINE)
            if not line:
                return
            yield line.decode("utf-8", "surrogateescape").rstrip("\n")


# ---- the program

def answer_by_index(options: argparse.Namespace, lines: Iterable[str], notation: Notation) -> int:
    """Answers lines over an index in this process; returns the status."""
    from .embedded import Index

    columns = 1 if options.columns is None else options.columns
    try:
        index = Index(columns=columns)
    except (BadColumn, TooLong) as fault:
        complain(f"--columns {columns}: {fault}")
        return 2
    with index:
        return answer_all(lambda query: ask_embedded(index, query), lines, notation)


def answer_by_server(options: argparse.Namespace, lines: Iterable[str], notation: Notation) -> int:
    """Answers lines over a connection to a server; returns the status."""
    with connected(options, options.timeout) as index:
        return answer_all(lambda query: index.call_all([query])[0], lines, notation)


def main(arguments: Optional[Sequence[str]] = None) -> int:
    """Runs the shell with these arguments, or those of the command line; returns the status."""
    given = list(sys.argv[1:] if arguments is None else arguments)
    try:
        if given[:1] == ["serve"]:
            return serve(given[1:])
        if given[:1] == ["folder"]:
            read_folder(given[1:])
        if given[:1] == ["board"]:
            from .board.command import main as show_board

            return show_board(given[1:])
        if given[:1] == ["mirror"]:
            from .mirror.command import main as mirror

            return mirror(given[1:])
        if given[:1] and given[0] in COMMANDS:
            return ask_server(given[0], given[1:], write_line, complain)
        options = parsed(given)
        if options.words and options.words[0] in COMMANDS:
            # (the command after the options of the connection)
            front = given[:len(given) - len(options.words)]
            return ask_server(options.words[0], [*front, *options.words[1:]], write_line, complain)
        words: List[str] = options.words[1:] if options.words[:1] == ["--"] else options.words
        lines = [" ".join(words)] if words else lines_of_input()
        for stream in range(3):
            # the connection would take the number of one that is closed
            os.fstat(stream)
        answer_by = answer_by_index if options.embedded else answer_by_server
        return answer_by(options, lines, TEXT if options.text else HEX)
    except (ConnectionLost, BadReply, NoLibrary, NoServer, OSError) as fault:
        complain(str(fault))
        return 3
    except KeyboardInterrupt:
        return 130


if __name__ == "__main__":
    sys.exit(main())
