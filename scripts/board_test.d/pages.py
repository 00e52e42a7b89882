"""Cases of the page in a browser: its figures, keys of any bytes, the form, two browsers, and a server that ends."""
from __future__ import annotations

import signal
import subprocess
import sys
import time
from pathlib import Path
from typing import Dict, List, Optional, Sequence

from chromium import Browser, Page
from running import CLIENTS, TOP, Board, PageReader, Server, Writer, want, want_no_view, want_same
from seeing import (CONTRAST, WATCH_SHIFTS, Seen, build, press, seen, seen_one, turn, wait_for_cards,
                    wait_for_text, want_names, want_no_complaint)

sys.path.insert(0, str(CLIENTS))

from rowanspan import Page as ViewPage, Prefix  # noqa: E402

HEX_TITLE = f"prefix {b'open/'.hex()}"
KEYS = [f"{state}/{number:03d}".encode() for state in ("open", "closed") for number in range(40)]
HOSTILE = [b"<script>window.hostile = 1</script>", b"<img src=x onerror=window.hostile=2>", b"\"'><b>&amp;",
           b"\x00nul\x00", b"\xff\xfe invalid \xc3", b"line\nfeed\r\ttab", "größe ☃ \u202e".encode(),
           b"back\\slash \\x41", b"", b"{{}}${1}</title>"]
# the same as the page has to show them
SHOWN = ["<script>window.hostile = 1</script>", "<img src=x onerror=window.hostile=2>", "\"'><b>&amp;",
         "\\x00nul\\x00", "\\xff\\xfe invalid \\xc3", "line\\x0afeed\\x0d\\x09tab", "größe ☃ \\xe2\\x80\\xae",
         "back\\x5cslash \\x5cx41", "(empty)", "{{}}${1}</title>"]
# a growth that isn't one, in bytes: of the board's process, and of what the page's scripts hold
STEADY_BOARD, STEADY_PAGE = 3 << 20, 1 << 20
# in seconds: how long memory may still grow at first
WARMING = 12.0


def cells(page: ViewPage) -> List[List[str]]:
    """The rows of a page as the board shows them in hex."""
    return [[key.hex() or "(empty)", *(column.hex() for column in row.columns), f"{row.version:,}"]
            for key, row in page.rows]


def compare(samples: Sequence[Seen], reader: PageReader) -> int:
    """Compares what was seen with the pages of the same commits that the client read; returns how many there were."""
    pairs = [(card, reader.pages[card.commit()]) for card in samples if card.commit() in reader.pages]
    for card, page in pairs:
        want_same(f"count and sums at commit {page.at}", card.totals(), (page.count, *page.sums))
        want_same(f"rows at commit {page.at}", card.rows, cells(page))
    want(len(pairs) >= 0.8 * len(samples), f"of {len(samples)} only {len(pairs)} were read by the client too")
    return len({card.commit() for card, _ in pairs})


class Lasting:
    """What is measured while a page is updated for a while."""

    def __init__(self, board: Board, page: Page) -> None:
        self.board, self.page = board, page
        self.samples: Dict[str, List[Seen]] = {}
        self.first: Optional[List[int]] = None
        self.last: List[int] = []

    def look(self) -> None:
        for card in seen(self.page):
            self.samples.setdefault(card.title, []).append(card)

    def measure(self) -> None:
        self.last = [self.board.memory(), self.page.memory(), self.page.value("document.querySelectorAll('*').length")]
        self.first = self.first or self.last

    def run(self, seconds: float) -> None:
        """Looks again and again, and measures after the first seconds and at the end."""
        began = time.monotonic()
        while time.monotonic() < began + seconds:
            self.look()
            if self.first is None and time.monotonic() > began + min(WARMING, seconds / 2):
                self.measure()
            time.sleep(0.2)
        self.measure()

    def figures(self) -> str:
        assert self.first is not None
        board, page, elements = ([before, after] for before, after in zip(self.first, self.last))
        return (f"board {board[0] / 2 ** 20:.1f} to {board[1] / 2 ** 20:.1f} MB, page's scripts "
                f"{page[0] / 2 ** 20:.2f} to {page[1] / 2 ** 20:.2f} MB, {elements[0]} to {elements[1]} elements")

    def want_steady(self) -> None:
        assert self.first is not None
        want(self.last[0] - self.first[0] < STEADY_BOARD and self.last[1] - self.first[1] < STEADY_PAGE,
             f"memory grows: {self.figures()}")
        want_same("elements of the page", self.last[2], self.first[2])


def updates(serve: Sequence[str], browser: Browser, seconds: float) -> str:
    """A page is updated for a while as a writer writes: it shows what the client reads at the same commit."""
    with Server(serve) as server, server.index() as index:
        foreign = index.build(Prefix(b"closed/"))
        with Board(server.port, "--view", str(foreign.number), "--text", "--build", "prefix open/ any") as board:
            page = browser.page(board.address)
            wait_for_cards(page, 2)
            page.value(WATCH_SHIFTS)
            for switch in ("keys", "columns"):
                turn(page, switch, "hex")
            title = "prefix 636c6f7365642f" if server.lists_views() else f"View {foreign.number}"
            lasting = Lasting(board, page)
            own = seen_one(page, HEX_TITLE).view()
            with PageReader(server.port, own, 10) as first, PageReader(server.port, foreign.number, 10) as second:
                with Writer(server.port, 100, KEYS):
                    lasting.run(seconds)
            found = compare(lasting.samples[HEX_TITLE], first), compare(lasting.samples[title], second)
            want_updates(lasting, seconds)
            lasting.want_steady()
            want_same("the shift of the layout", page.value("window.shifts"), 0)
            want_no_complaint(page)
            page.close()
    return f"{found[0]} and {found[1]} commits compared; {lasting.figures()}"


def want_updates(lasting: Lasting, seconds: float) -> None:
    """The pages never went back, came often, and marked what changed; the lines are drawn, and heights stay."""
    for title, cards in lasting.samples.items():
        commits = [card.commit() for card in cards]
        want_same(f"{title}: the order of commits", commits, sorted(commits))
        want(len(set(commits)) > seconds * 2, f"{title}: only {len(set(commits))} commits in {seconds:.0f} seconds")
        want(any(card.changed for card in cards), f"{title}: no change was marked")
        want_same(f"{title}: heights of rows", {tuple(card.heights) for card in cards}, {(28,)})
        marked = [(set(card.changed), {row[-1] for row in card.rows}) for card in cards]
        want(all(changed <= shown for changed, shown in marked), f"{title}: an empty row was marked")
        want_same(f"{title}: rows with another's mark", {card.tinted for card in cards}, {0})
        for label, path in cards[-1].lines:
            is_drawn = " over the last " in label and path.count("L") >= min(seconds / 2, 250)
            want(is_drawn, f"{title}: a line {label!r} {path[:80]!r}")


def hostile_keys(serve: Sequence[str], browser: Browser) -> None:
    """Keys, columns and names of any bytes are shown as text."""
    with Server(serve) as server, server.index() as index:
        for key in HOSTILE:
            index.put(key, {0: key[:64], 1: b"<i>"})
        with Board(server.port, "--build", "range - none any", "--rows", "20") as board:
            page = browser.page(board.address)
            wait_for_cards(page, 1)
            names = dict(zip(HOSTILE, SHOWN))
            shown = [[names[key], names[key] if key else "", "<i>", str(HOSTILE.index(key) + 1)]
                     for key in sorted(HOSTILE)]
            want_same("the rows as text", seen(page)[0].rows, shown)
            turn(page, "keys", "hex")
            want_same("the keys as hex", [row[0] for row in seen(page)[0].rows],
                      [key.hex() or "(empty)" for key in sorted(HOSTILE)])
            want_hostile_names(page)
            want_same("elements that a key made", page.value(
                "[...document.querySelectorAll('script, img, b, i')].map((it) => it.outerHTML)"),
                ['<script type="module" src="/board.js"></script>'])
            want_same("what a key's script set", page.value("typeof window.hostile"), "undefined")
            want_no_complaint(page)
            page.close()


def want_hostile_names(page: Page) -> None:
    """Names with markup are shown as text too."""
    for place, name in enumerate(SHOWN[:3], 2):
        said = build(page, {"kind": "prefix", "key": SHOWN[place], "name": name})
        want_same("a view with such a name", said, f"View {place} is on the board.")
        page.wait(f"document.querySelectorAll('.card').length === {place}")
        want_same("the name", [card.title for card in seen(page)][-1], name)


def forms(serve: Sequence[str], browser: Browser) -> None:
    """The form builds views of each kind, and says why one isn't built; the button drops one."""
    with Server(serve) as server, server.index() as index:
        for number in range(30):
            index.put(b"%02d" % number, {0: bytes((number,)), 1: b"even" if number % 2 == 0 else b"odd"})
        with Board(server.port) as board:
            page = browser.page(board.address)
            page.wait("!document.getElementById('none').hidden")
            asked = [({"kind": "prefix", "key": "1"}, 10), ({"kind": "range", "lo": "05", "hi": ""}, 25),
                     ({"kind": "range", "lo": "3035", "hi": "3130", "notation": "hex"}, 5),
                     ({"kind": "prefix", "key": "", "test": "equals", "column": "1", "value": "odd"}, 15),
                     ({"kind": "prefix", "key": "2", "test": "atleast", "column": "0", "value": "25"}, 5)]
            for place, (fields, _) in enumerate(asked, 1):
                want_same(str(fields), build(page, fields), f"View {place} is on the board.")
            wait_for_cards(page, len(asked))
            want_same("counts", [card.totals()[0] for card in seen(page)], [count for _, count in asked])
            want_same("titles", [card.title for card in seen(page)], [
                "prefix 1", "from 05 to the last key", "from 05 before 10", "prefix (empty) with column 1 equal to odd",
                "prefix 2 with column 0 at least 25"])
            want_no_complaint(page)
            want_refused_forms(page)
            press(page, "prefix 1", "drop")
            page.wait("document.querySelectorAll('.card').length === 4")
            foreign = index.build(Prefix(b"0"))
            want_same("a view by its number", build(page, {"kind": "number", "number": str(foreign.number)}),
                      f"View {foreign.number} is on the board.")
            wait_for_cards(page, 5)
            title = "prefix 0" if server.lists_views() else f"View {foreign.number}"
            want_same("the view by its number", seen_one(page, title).totals()[0], 10)
            press(page, title, "hide")
            page.wait("document.querySelectorAll('.card').length === 4")
            want_same("the view that is hidden", foreign.count, 10)
            want_same("dialogs", page.dialogs, ["Drop view 1? It ends for all clients of the server."])
            want_no_view(index, 1)
            page.close()


def want_refused_forms(page: Page) -> None:
    """What can't be built is said."""
    for fields, part in (({"kind": "prefix", "key": "6g", "notation": "hex"}, "Prefix: expected bytes in hex"),
                         ({"kind": "prefix", "key": "\\n"}, "Prefix: expected text"),
                         ({"kind": "range", "lo": "b", "hi": "a"}, "the end of a range is not after its start"),
                         ({"kind": "prefix", "key": "a" * 1025}, "more than 1,024 bytes"),
                         ({"kind": "prefix", "key": "a", "test": "equals", "column": "9", "value": ""}, "a column"),
                         ({"kind": "number", "number": "77"}, "no view has this number"),
                         ({"kind": "number"}, "Number: expected"),
                         ({"kind": "prefix", "test": "atleast", "column": "0", "value": "x"}, "Value: expected")):
        said = build(page, fields)
        want(said.startswith("Not done: ") and part in said, f"{fields}: {said}")


def two_browsers(serve: Sequence[str], browser: Browser, program: str) -> str:
    """Two browsers see the same views; what one builds or drops comes and goes at the other; nothing is read twice."""
    with Server(serve) as server, Board(server.port, "--text", "--build", "prefix open/ any") as board:
        with Browser(program) as other, Writer(server.port, 50, KEYS):
            pages = [browser.page(board.address), other.page(board.address)]
            for page in pages:
                wait_for_cards(page, 1)
            counts = [count_events(page) for page in pages]
            build(pages[0], {"kind": "prefix", "key": "closed/", "name": "Closed"})
            wait_for_cards(pages[1], 2)
            press(pages[1], "prefix open/", "drop")
            for page in pages:
                page.wait("document.querySelectorAll('.card').length === 1")
                want_same("what is left", [card.title for card in seen(page)], ["Closed"])
                want_no_complaint(page)
            pages[0].close()
    want(all(8 <= count <= 21 for count in counts), f"{counts} events of a view came in five seconds")
    return f"{counts[0]} and {counts[1]} events in five seconds"


def count_events(page: Page) -> int:
    """How many events of a view a page is sent in five seconds, after the first."""
    return int(page.value("""new Promise((done) => {
      let count = -1;
      const events = new EventSource("/events");
      events.addEventListener("view", () => { count += 1; });
      setTimeout(() => { events.close(); done(count); }, 5000);
    })"""))


def server_ends(serve: Sequence[str], browser: Browser) -> None:
    """The server is killed and started again: the page says so, keeps what it showed, and continues."""
    first = Server(serve)
    with first, first.index() as index:
        commits = [index.put(key, {0: b"\5", 1: b"\7"}) for key in KEYS]
        foreign = index.build(Prefix(b"closed/"))
        with Board(first.port, "--view", str(foreign.number), "--text", "--build", "prefix open/ any") as board:
            page = browser.page(board.address)
            wait_for_cards(page, 2)
            before = seen(page)
            want_same("the view that was given", (before[0].title, before[0].about),
                      ("prefix closed/", "") if first.lists_views() else
                      ("View 1", "specification unknown: given by number"))
            want_same("before", [card.totals() for card in before], [(40, 200, 280)] * 2)
            first.end(signal.SIGKILL)
            page.wait("document.body.classList.contains('lost')")
            said = page.value("document.getElementById('link').textContent")
            want("The connection to the server is lost since" in said and "Trying again" in said, said)
            for scheme in ("light", "dark"):
                page.color(scheme)
                time.sleep(1)
                ratio, text = page.value(CONTRAST)
                want(ratio >= 4.5, f"while it is lost, {scheme}: the contrast of {text!r} is {ratio:.2f}")
            want_same("while it is lost", [card.totals() for card in seen(page)], [card.totals() for card in before])
            want("Not done: " in build(page, {"kind": "prefix", "key": "a"}), "a view was built at no server")
            # (that reply is one that a browser complains of)
            page.complaints.clear()
            with Server(serve, first.port) as second, second.index() as again:
                again.put(KEYS[0], {0: b"\6", 1: b"\1"})
                page.wait("document.body.classList.contains('live')")
                wait_for_text(page, ".card:last-child .at", "1")
                own, given = seen_one(page, "prefix open/"), seen(page)[0]
                want_same("after", (own.totals(), own.commit(), own.trouble, own.stale), ((1, 6, 1), 1, "", False))
                want(given.stale and "has this view no longer" in given.trouble, str(given))
                want_same("the view that is over", given.totals(), before[0].totals())
                want(commits[-1] > own.commit(), "the commits didn't begin again")
                again.put(KEYS[1], {0: b"\1"})
                page.wait("document.querySelector('.card:last-child .figures dd').textContent === '2'")
            want_no_complaint(page)
            page.close()


def board_ends(serve: Sequence[str], browser: Browser) -> None:
    """The board is killed: the page says so and keeps what it showed. There is another one: the page loads again."""
    with Server(serve) as server, server.index() as index:
        index.put(b"open/1", {0: b"\5"})
        with Board(server.port, "--text", "--build", "prefix open/ any") as board:
            page = browser.page(board.address)
            wait_for_cards(page, 1)
            board.end(signal.SIGKILL)
            page.wait("document.body.classList.contains('gone')")
            want_same("what is kept", seen_one(page, "prefix open/").totals(), (1, 5, 0))
            with Board(server.port, "--text", "--build", "prefix o any", http_port=board.port):
                wait_for_text(page, "h2", "prefix o")
                # (the view of the board before is still there)
                wait_for_cards(page, 2 if server.lists_views() else 1)
                page.wait("document.body.className === 'live'")
                want_same("a form of the page", build(page, {"kind": "prefix", "key": "x"}), "View 3 is on the board.")
            page.close()


def looks(serve: Sequence[str], browser: Browser, picture: Optional[Path]) -> str:
    """The page at 400 and 1,400 pixels, dark and light, with the orders of the example: what fits, contrast, names."""
    with Server(serve) as server:
        example = str(TOP / "examples" / "orders.py")
        orders = [sys.executable, example, "-p", str(server.port), "--seed", "2", "--rate", "40"]
        options = ["--text", "--columns-as", "number", "--rows", "7"]
        for spec in ("prefix open/ any", "prefix open/ada/ any"):
            options += ["--build", spec]
        with Board(server.port, *options) as board, subprocess.Popen(orders) as writing:
            try:
                page = browser.page(board.address)
                wait_for_cards(page, 2)
                time.sleep(25 if picture else 3)
                if picture:
                    take_picture(page, picture)
                least = min(look_at(page, width, scheme) for width in (400, 1400) for scheme in ("light", "dark"))
                names = want_names(page)
                want_keys(page)
                want_no_complaint(page)
            finally:
                writing.terminate()
            page.close()
    return f"contrast {least:.1f} at least, {names} controls with names"


def look_at(page: Page, width: int, scheme: str) -> float:
    """Looks at one size and scheme; returns the least contrast."""
    page.resize(width, 900)
    page.color(scheme)
    # (a row that was marked before has faded then)
    time.sleep(1)
    want_same(f"the width of the page at {width}", page.value("document.documentElement.scrollWidth"), width)
    page.value("document.querySelector('details').open = true")
    ratio, text = page.value(CONTRAST)
    want(ratio >= 4.5, f"{scheme}, {width}: the contrast of {text!r} is {ratio:.2f}")
    page.value("document.querySelector('details').open = false")
    return float(ratio)


def want_keys(page: Page) -> None:
    """The key Tab comes to the switches, the form, and each view's button and rows."""
    page.value("document.activeElement.blur()")
    reached = []
    for _ in range(7):
        for kind in ("rawKeyDown", "keyUp"):
            page.call("Input.dispatchKeyEvent", type=kind, key="Tab", code="Tab", windowsVirtualKeyCode=9)
        reached.append(page.value("document.activeElement.name || document.activeElement.className"
                                  " || document.activeElement.localName"))
    want_same("what Tab comes to", reached, ["keys", "columns", "summary", "drop", "rows", "drop", "rows"])


def take_picture(page: Page, path: Path) -> None:
    """Writes the picture of docs/VIEWS.md."""
    page.resize(1240, 690)
    page.color("light")
    time.sleep(0.5)
    path.write_bytes(page.picture())
