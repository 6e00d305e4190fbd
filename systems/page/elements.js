// ---- elements and helpers

// The page as it came, for a copy of it with a case in it.
const SOURCE = "<!doctype html>\n" + document.documentElement.outerHTML + "\n";

const $ = id => document.getElementById(id);
const data = id => JSON.parse($(id).textContent);
const TABLES = data("tables"), EXAMPLES = data("examples");
const cards = Cards(TABLES);

// Says a text for some seconds. What `stays` is there until it is closed; an `action` is [its label, what it does].
let toastEnds = 0;
function say(text, { stays = false, action = null } = {}) {
  const close = () => {
    clearTimeout(toastEnds);
    $("toast-text").textContent = "";
    for (const it of $("toast").querySelectorAll("button")) it.remove();
  };
  close();
  $("toast-text").textContent = text;
  const button = (label, does) => {
    const made = make("button", { type: "button", textContent: label });
    made.onclick = () => {
      close();
      does();
    };
    $("toast").append(made);
  };
  if (action) button(...action);
  if (stays) button("Close", () => {});
  else toastEnds = setTimeout(close, action ? 15000 : 6000);
}

const plainName = name => name.replace(/_/g, " ");
const bytesOfBase64 = text => Uint8Array.from(atob(text), letter => letter.charCodeAt(0));

// The bytes that a stream makes of these. It is read piece by piece: of a fault in the body of a Response Firefox writes to the
// console, even where it is caught.
async function through(stream, bytes) {
  const reader = new Blob([bytes]).stream().pipeThrough(stream).getReader(), parts = [];
  for (let part; !(part = await reader.read()).done;) parts.push(part.value);
  return new Uint8Array(await new Blob(parts).arrayBuffer());
}

// What the browser keeps for this page, as an object; nothing where it keeps nothing.
function kept(storage, key) {
  try { return JSON.parse(window[storage].getItem(key)); } catch { return null; }
}

function keepIn(storage, key, value) {
  try {
    window[storage].setItem(key, JSON.stringify(value));
    return true;
  } catch {
    return false;
  }
}
