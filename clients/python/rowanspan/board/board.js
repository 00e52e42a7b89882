// The page's stream of events: views come, change and go, and the foot says whether the server answers.

import { Card } from "./card.js";
import { drop, hide, useForm } from "./form.js";
import { onSwitch } from "./notation.js";

// after how many milliseconds a stream that was refused is opened again
const RETRY = 3000;
const STALE = "What you see is from before. Trying again.";

const cards = new Map();
const list = document.getElementById("cards");

function setLink(state, text) {
  document.body.className = state;
  const foot = document.getElementById("link");
  if (foot.textContent !== text) {
    foot.textContent = text;
  }
}

function clock() {
  return new Date().toLocaleTimeString();
}

function cardOf(id) {
  if (!cards.has(id)) {
    const card = new Card(id, drop, hide);
    cards.set(id, card);
    list.append(card.element);
  }
  return cards.get(id);
}

/** Says how the board is connected. What was shown stays, in grey. */
function showLink({ link, why }) {
  if (link === "live") {
    setLink("live", "Connected: the views are as of now.");
  } else if (!document.body.classList.contains("lost")) {
    setLink("lost", `The connection to the server is lost since ${clock()}: ${why}. ${STALE}`);
  }
}

function showBoard(board) {
  if (board.instance !== document.body.dataset.instance) {
    // another board, whose forms have other tokens
    location.reload();
    return;
  }
  const wanted = new Set(board.cards);
  for (const [id, card] of cards) {
    if (!wanted.has(id)) {
      card.element.remove();
      cards.delete(id);
    }
  }
  // (each in its place, before what is in it comes)
  board.cards.forEach(cardOf);
  document.getElementById("none").hidden = wanted.size > 0;
  showLink(board);
}

function listen() {
  const events = new EventSource("/events");
  const on = (name, take) => events.addEventListener(name, (event) => take(JSON.parse(event.data)));
  on("board", showBoard);
  on("view", (view) => cardOf(view.id).show(view));
  on("samples", ({ id, samples }) => cardOf(id).take(samples));
  events.addEventListener("error", () => {
    setLink("gone", `The board doesn't answer since ${clock()}. ${STALE}`);
    if (events.readyState === EventSource.CLOSED) {
      setTimeout(listen, RETRY);
    }
  });
  // (a stream that is opened again begins with all that there is)
  events.addEventListener("open", () => cards.forEach((card) => card.forget()));
}

onSwitch(() => cards.forEach((card) => card.view && card.draw()));
useForm();
listen();
