// The forms of the page: the one that builds or shows a view, and the buttons that drop or hide one.

/** Sends a form; returns what the board replied, or throws an Error with its reason. */
async function send(path, fields) {
  let reply;
  try {
    reply = await fetch(path, { method: "POST", body: new URLSearchParams(fields) });
  } catch {
    throw new Error("the board doesn't answer");
  }
  const value = await reply.json();
  if (!reply.ok) {
    throw new Error(value.error);
  }
  return value;
}

/** Shows the fields that the chosen kind and test need. A field that isn't shown isn't sent. */
function fit(form) {
  const kind = form.elements.kind.value;
  const chosen = kind === "number" ? [kind] : [kind, form.elements.test.value];
  form.querySelector("button").textContent = kind === "number" ? "Show" : "Build";
  for (const label of form.querySelectorAll("[data-for]")) {
    label.hidden = !label.dataset.for.split(" ").some((name) => chosen.includes(name));
    label.querySelector("input, select").disabled = label.hidden;
  }
}

/** Makes the form build and show views. */
export function useForm() {
  const form = document.getElementById("build");
  const said = document.getElementById("said");
  fit(form);
  form.addEventListener("change", () => fit(form));
  form.addEventListener("submit", async (event) => {
    event.preventDefault();
    const button = form.querySelector("button");
    button.disabled = true;
    said.textContent = "Asking the server.";
    try {
      const { number } = await send("/build", new FormData(form));
      said.textContent = `View ${number} is on the board.`;
    } catch (fault) {
      said.textContent = `Not done: ${fault.message}.`;
    }
    button.disabled = false;
  });
}

/** Asks whether a view is to be dropped, and drops it. */
export function drop(card) {
  if (card.view && confirm(`Drop view ${card.view.number}? It ends for all clients of the server.`)) {
    takeOff(card, {});
  }
}

/** Takes a view that another client has built off the board. */
export function hide(card) {
  takeOff(card, { hide: "yes" });
}

async function takeOff(card, fields) {
  try {
    await send("/drop", { token: card.view.token, id: card.id, ...fields });
  } catch (fault) {
    alert(`Not done: ${fault.message}.`);
  }
}
