// Keys and columns as text, hex or numbers: what the switches of the page say, and which cells follow them.

const PLACES = ["text", "hex"];

/** The notation of "keys" or "columns", as its switch says. */
export function notationOf(what) {
  return document.querySelector(`input[name="${what}"]:checked`).value;
}

/** Bytes, which came as [text, hex], in a notation. A number has at most eight bytes, the highest first. */
export function written([text, hex], notation) {
  if (notation !== "number") {
    return [text, hex][PLACES.indexOf(notation)];
  }
  return hex.length > 16 ? "–" : grouped(BigInt(`0x${hex || "0"}`).toString());
}

/** The digits of a number in groups of three. */
export function grouped(digits) {
  return digits.replace(/\B(?=(\d{3})+$)/g, ",");
}

/** Sets a text, and the whole of it as a tip, if it isn't there already. */
export function setText(element, text) {
  if (element.textContent !== text) {
    element.textContent = text;
    element.title = text;
  }
}

/** Calls a function after each turn of a switch; a browser keeps how they are. */
export function onSwitch(changed) {
  for (const what of ["keys", "columns"]) {
    const kept = recalled(what) ?? (what === "columns" ? document.body.dataset.columnsAs : "text");
    for (const input of document.querySelectorAll(`input[name="${what}"]`)) {
      input.checked = input.value === kept;
      input.addEventListener("change", () => {
        keep(what, input.value);
        changed();
      });
    }
  }
}

function recalled(what) {
  try {
    return localStorage.getItem(what);
  } catch {
    return null;
  }
}

function keep(what, value) {
  try {
    localStorage.setItem(what, value);
  } catch {
    // a browser that keeps nothing shows the switches as they were at first
  }
}
