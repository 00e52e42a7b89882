// A view on the page: its specification, figures with their lines, and its first rows, which change in place.

import { drawLine, newLine, WINDOW } from "./line.js";
import { grouped, notationOf, setText, written } from "./notation.js";

// for how many milliseconds a row that has changed is marked
const MARKED = 1200;
const ROWS = Number(document.body.dataset.rows);

export class Card {
  constructor(id, onDrop, onHide) {
    this.id = id;
    this.view = null;
    // of the rows that are shown: until when each version is marked
    this.marked = new Map();
    this.seconds = [];
    this.values = [];
    this.figures = [];
    this.element = document.getElementById("card").content.firstElementChild.cloneNode(true);
    const heading = this.find("h2");
    heading.id = `view-${id}`;
    this.element.setAttribute("aria-labelledby", heading.id);
    this.find(".rows").setAttribute("aria-labelledby", heading.id);
    this.find(".drop").addEventListener("click", () => onDrop(this));
    this.find(".hide").addEventListener("click", () => onHide(this));
    this.addRows();
  }

  find(selector) {
    return this.element.querySelector(selector);
  }

  /** As many rows as there can be, empty ones at the end, so that the height is always the same. */
  addRows() {
    const body = this.find("tbody");
    for (let place = 0; place < ROWS; place += 1) {
      const row = body.insertRow();
      row.insertCell().className = "key";
      row.insertCell().className = "version";
    }
  }

  /** Takes the view as the board has it now. */
  show(view) {
    const before = this.view;
    this.view = view;
    if (view.page) {
      this.mark(before?.number === view.number ? before.page : null, view.page);
    }
    this.draw();
  }

  /** Notes which rows have been written since the page before. */
  mark(before, page) {
    const now = performance.now();
    const marked = new Map();
    for (const [, version] of page.rows) {
      const until = this.marked.get(version) ?? (before && BigInt(version) > BigInt(before.at) ? now + MARKED : 0);
      marked.set(version, until);
    }
    this.marked = marked;
    clearTimeout(this.timer);
    this.timer = setTimeout(() => this.drawMarks(), MARKED + 10);
  }

  /** Draws all of it, by the notation that the switches say. */
  draw() {
    const { view } = this;
    this.drawHeading(view);
    setText(this.find(".trouble"), view.trouble);
    this.element.classList.toggle("stale", view.trouble !== "");
    if (!view.page) {
      return;
    }
    setText(this.find(".at"), grouped(view.page.at));
    setText(this.find(".lag"), `${grouped(view.lag)} ${view.lag === "1" ? "commit" : "commits"}`);
    this.drawFigures(view.page);
    this.drawRows(view.page);
    this.drawMarks();
  }

  drawHeading(view) {
    const words = view.spec?.map((word) => Array.isArray(word) ? written(word, notationOf("keys")) || "(empty)" : word);
    const spec = words ? words.join(" ") : view.note;
    setText(this.find("h2"), view.name || (words ? spec : `View ${view.number}`));
    setText(this.find(".number"), words && view.number !== "0" ? `view ${view.number}` : "");
    setText(this.find(".words"), view.name || !words ? spec : "");
    this.find(".hide").hidden = view.isOwn;
    for (const [button, does] of [[".drop", "Drop"], [".hide", "Hide"]]) {
      this.find(button).setAttribute("aria-label", `${does} view ${view.number}, ${view.name || spec}`);
    }
  }

  drawFigures(page) {
    const figures = [["count", page.count], ...page.sums.map((sum, column) => [`sum of column ${column}`, sum])];
    while (this.figures.length < figures.length) {
      this.addFigure(figures[this.figures.length][0]);
    }
    figures.forEach(([, digits], place) => setText(this.figures[place].number, grouped(digits)));
  }

  addFigure(label) {
    const element = document.getElementById("figure").content.firstElementChild.cloneNode(true);
    const [number, place] = element.querySelectorAll("dd");
    element.querySelector("dt").textContent = label;
    const line = newLine();
    place.append(line);
    this.find(".figures").append(element);
    this.figures.push({ label, number, line });
  }

  drawRows(page) {
    const columns = page.sums.length;
    this.addColumns(columns);
    const shown = [notationOf("keys"), notationOf("columns")];
    const body = this.find("tbody").rows;
    for (let place = 0; place < ROWS; place += 1) {
      drawRow(body[place].cells, page.rows[place], shown);
    }
    const rows = `${page.rows.length} ${page.rows.length === 1 ? "row" : "rows"}`;
    setText(this.find("caption"), BigInt(page.count) > page.rows.length ? `the first ${rows}` : rows);
  }

  /** Columns, once their number is known. */
  addColumns(columns) {
    const head = this.find("thead tr");
    const first = head.cells.length - 2;
    for (let column = first; column < columns; column += 1) {
      const cell = document.createElement("th");
      cell.scope = "col";
      cell.textContent = `Column ${column}`;
      head.insertBefore(cell, head.lastElementChild);
      for (const row of this.find("tbody").rows) {
        row.insertCell(column + 1);
      }
    }
    this.find("table").style.setProperty("--columns", columns);
    this.find("table").classList.toggle("numbers", notationOf("columns") === "number");
  }

  /** Marks the rows that have just changed, and no others. */
  drawMarks() {
    const now = performance.now();
    const rows = this.view.page?.rows ?? [];
    [...this.find("tbody").rows].forEach((element, place) => {
      const version = rows[place]?.[1] ?? "";
      const isMarked = this.marked.get(version) > now;
      // a mark fades in its place: not if another row has come there
      const wasMarked = element.dataset.version === version && element.className !== "";
      element.className = isMarked ? "changed" : wasMarked ? "fading" : "";
      element.dataset.version = version;
    });
  }

  /** Forgets the seconds: a new stream begins with all of them. */
  forget() {
    this.seconds = [];
    this.values = [];
  }

  /** Takes the seconds that are new, and draws the lines. */
  take(samples) {
    for (const [second, values] of samples) {
      this.seconds.push(second);
      this.values.push(values);
    }
    const last = this.seconds[this.seconds.length - 1];
    const kept = this.seconds.findIndex((second) => second > last - WINDOW);
    this.seconds.splice(0, kept);
    this.values.splice(0, kept);
    this.figures.forEach(({ label, line }, place) => {
      drawLine(line, label, this.seconds, this.values.map((values) => values[place] ?? 0));
    });
  }
}

/** A row in its cells: key, columns, version; empty if there is none. */
function drawRow(cells, row, [keysAs, columnsAs]) {
  const [key, version, columns] = row ?? [["", ""], "", []];
  setText(cells[0], row ? written(key, keysAs) || "(empty)" : "");
  setText(cells[cells.length - 1], grouped(version));
  for (let column = 0; column < cells.length - 2; column += 1) {
    setText(cells[column + 1], row ? written(columns[column], columnsAs) : "");
  }
}
