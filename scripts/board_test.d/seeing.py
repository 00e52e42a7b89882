"""What a test sees on the board's page: its views, its foot, the contrast of its texts; and what it does there."""
from __future__ import annotations

import json
from dataclasses import dataclass
from typing import Dict, List, Tuple

from chromium import Page
from running import Failed, want_same

# each view as it is on the page at one moment; the rows without the empty ones
CARDS = """[...document.querySelectorAll(".card")].map((card) => {
  const text = (selector) => card.querySelector(selector).textContent;
  return {
    title: text("h2"), number: text(".number"), about: text(".words"), at: text(".at"), lag: text(".lag"),
    trouble: text(".trouble"), stale: card.classList.contains("stale"), caption: text("caption"),
    figures: [...card.querySelectorAll(".figures div")].map((figure) =>
      [figure.querySelector("dt").textContent, figure.querySelector("dd").textContent]),
    lines: [...card.querySelectorAll(".figures svg")].map((line) =>
      [line.getAttribute("aria-label"), line.querySelector("path").getAttribute("d")]),
    rows: [...card.querySelectorAll("tbody tr")].map((row) => [...row.cells].map((cell) => cell.textContent))
      .filter((cells) => cells[0] !== ""),
    tinted: [...card.querySelectorAll("tbody tr:not(.changed, .fading)")]
      .filter((row) => getComputedStyle(row).backgroundColor !== "rgba(0, 0, 0, 0)").length,
    changed: [...card.querySelectorAll("tbody tr.changed td.version")].map((cell) => cell.textContent),
    heights: [...new Set([...card.querySelectorAll("tr")].map((row) => row.offsetHeight))],
  };
})"""
# how far what is shown moved, without a person's doing, since the page was opened
WATCH_SHIFTS = """window.shifts = 0; new PerformanceObserver((list) => {
  for (const entry of list.getEntries()) window.shifts += entry.hadRecentInput ? 0 : entry.value;
}).observe({ type: "layout-shift", buffered: true })"""
# the least contrast of a text with what is under it, and which text that is
CONTRAST = """(() => {
  const canvas = document.createElement("canvas").getContext("2d", { willReadFrequently: true });
  // how light colors are that lie on one another, the lowest first
  const light = (colors) => {
    for (const color of colors) {
      canvas.fillStyle = color;
      canvas.fillRect(0, 0, 1, 1);
    }
    const [red, green, blue] = [...canvas.getImageData(0, 0, 1, 1).data].map((part) => {
      const share = part / 255;
      return share <= 0.04045 ? share / 12.92 : ((share + 0.055) / 1.055) ** 2.4;
    });
    return 0.2126 * red + 0.7152 * green + 0.0722 * blue;
  };
  const under = (element) => element
    ? [...under(element.parentElement), getComputedStyle(element).backgroundColor] : [];
  const ratios = [...document.querySelectorAll("body *")]
    .filter((element) => element.checkVisibility() && [...element.childNodes].some((node) =>
      node.nodeType === Node.TEXT_NODE && node.data.trim()))
    .map((element) => {
      const [one, other] = [light([getComputedStyle(element).color]), light(under(element))];
      return [(Math.max(one, other) + 0.05) / (Math.min(one, other) + 0.05), element.textContent.slice(0, 40)];
    });
  return ratios.sort((one, other) => one[0] - other[0])[0];
})()"""
# roles that a person uses, each of which needs a name
CONTROLS = {"button", "textbox", "combobox", "radio", "spinbutton", "group", "region", "table", "image", "article",
            "DisclosureTriangle", "radiogroup"}


@dataclass(frozen=True)
class Seen:
    """A view on the page."""

    title: str
    number: str
    about: str
    at: str
    lag: str
    trouble: str
    stale: bool
    caption: str
    figures: List[List[str]]
    lines: List[List[str]]
    rows: List[List[str]]
    tinted: int
    changed: List[str]
    heights: List[int]

    def view(self) -> int:
        """The number of a view whose specification is known."""
        return int(self.number.split()[1])

    def commit(self) -> int:
        return whole(self.at)

    def totals(self) -> Tuple[int, ...]:
        """The count and the sums."""
        return tuple(whole(digits) for _, digits in self.figures)


def whole(digits: str) -> int:
    return int(digits.replace(",", ""))


def seen(page: Page) -> List[Seen]:
    """The views on the page."""
    return [Seen(**card) for card in page.value(CARDS)]


def seen_one(page: Page, title: str) -> Seen:
    """The view with this title."""
    found = [card for card in seen(page) if card.title == title]
    if len(found) != 1:
        raise Failed(f"{len(found)} views have the title {title!r}")
    return found[0]


def wait_for_cards(page: Page, count: int) -> None:
    """Waits until this many views are there, each with a page."""
    page.wait(f"document.querySelectorAll('.card').length === {count}"
              " && [...document.querySelectorAll('.card .at')].every((at) => at.textContent !== '–')")


def wait_for_text(page: Page, selector: str, part: str) -> str:
    """Waits until an element's text has a part; returns the text."""
    element = f"document.querySelector({json.dumps(selector)})"
    return str(page.wait(f"{element}?.textContent.includes({json.dumps(part)}) && {element}.textContent"))


def turn(page: Page, switch: str, to: str) -> None:
    """Turns a switch as a click does."""
    page.value(f"document.querySelector('input[name=\"{switch}\"][value=\"{to}\"]').click()")


def build(page: Page, fields: Dict[str, str]) -> str:
    """Fills in the form and sends it; returns what the page says then."""
    page.value("""(async () => {
      const form = document.getElementById("build");
      form.closest("details").open = true;
      form.reset();
      for (const [name, value] of Object.entries(%s)) {
        form.elements[name].value = value;
        form.elements[name].dispatchEvent(new Event("change", { bubbles: true }));
      }
      document.getElementById("said").textContent = "";
      form.requestSubmit();
    })()""" % json.dumps(fields))
    return str(page.wait("(document.getElementById('said').textContent !== 'Asking the server.'"
                         " && document.getElementById('said').textContent)"))


def press(page: Page, title: str, button: str) -> None:
    """Presses the button that drops or hides the view with this title."""
    page.value(f"[...document.querySelectorAll('.card')].find((card) =>"
               f" card.querySelector('h2').textContent === {json.dumps(title)}).querySelector('.{button}').click()")


def want_no_complaint(page: Page) -> None:
    want_same("what the page complains of", page.complaints, [])


def want_names(page: Page) -> int:
    """Each control that a screen reader finds has a name; returns how many there are."""
    nodes = [node for node in page.call("Accessibility.getFullAXTree")["nodes"] if not node.get("ignored")]
    controls = [node for node in nodes if node["role"]["value"] in CONTROLS]
    bare = [node["role"]["value"] for node in controls if not node.get("name", {}).get("value")]
    want_same("controls without a name", bare, [])
    return len(controls)
