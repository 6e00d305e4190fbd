// ---- the case that is open

const BLANK_CASE = `BEGIN NEW DATA CASE
C A source behind 1 ohm and 10 mH feeds 50 ohm; a switch closes at 5 ms.
C DELTAT   TMAX
   1.E-5   4.E-2
       1       2
C  BUS1  BUS2              R     L     C
  SRC   BUS                 1.   10.
  LOAD                     50.
BLANK
C  BUS1  BUS2  T-CLOSE   T-OPEN
  BUS   LOAD       5.E-3
BLANK
C  NAME    AMPLITUDE FREQUENCY T0/PHASE
14SRC           100.       50.      -90.
BLANK
  BUS   LOAD
BLANK
`;

// `base` is what was opened: as long as it isn't changed, nothing is kept. `kept` says that the case is in the store, `hash` is the
// address that it was opened by. `lineEnd` and `latin` are those of the file that was opened, and of the one that is saved, `file`
// that file where the browser lets the page write to it. `given` are the files of a record that were opened, for an audit.
const open = { name: "", example: null, kept: false, hash: "", base: {}, latin: false, lineEnd: "\n", file: null, given: null };

// The bytes of a text, as the file that it came from has them.
function bytesOf(text) {
  const ended = open.lineEnd === "\n" ? text : text.replace(/\n/g, open.lineEnd);
  if (!open.latin) return new TextEncoder().encode(ended);
  return Uint8Array.from(ended, letter => Math.min(letter.codePointAt(0), 255));
}

// Puts a case into the page: { name, text, what, numbers, times, given, example, kept, file, hash }. What was changed in the one
// before is kept first.
function openCase(it, runs) {
  if (open.name) store.keep();
  stop();
  Object.assign(open, {
    name: it.name, example: it.example ?? null, kept: it.kept ?? false, hash: it.hash ?? "", latin: it.latin ?? false,
    lineEnd: it.lineEnd ?? "\n", file: it.file ?? null, given: it.given ?? null,
  });
  editor.setText(it.text);
  $("times").value = it.times ?? "";
  open.base = it.base ?? { text: editor.text(), times: $("times").value };
  setCommand(it.what ?? "run", it.numbers);
  results.forget();
  checking.now();
  named();
  store.remember();
  if (runs) run();
}

// The name of the case is another: in the list, the title and the address.
function named() {
  results.named(open.name);
  listCases();
  titled();
  const hash = open.kept ? `#kept=${encodeURIComponent(open.name)}` : open.example ? `#${open.example}` : open.hash;
  history.replaceState(null, "", location.href.split("#")[0] + hash);
}

function titled(state = "") {
  document.title = `${state}${plainName(open.name)} – emtp`;
}

const NUMBERS = {
  first: "scan-first", last: "scan-last", by: "scan-by", trial: "trial-number",
  line: "vary-line", from: "vary-from", to: "vary-to", values: "vary-values",
};

function caseNow() {
  const numbers = Object.fromEntries(Object.entries(NUMBERS).map(([name, id]) => [name, $(id).value]));
  return { name: open.name, text: editor.text(), what: $("what").value, numbers, times: $("times").value };
}

function setCommand(what, numbers = {}) {
  $("what").value = what;
  for (const [name, id] of Object.entries(NUMBERS)) if (numbers?.[name]) $(id).value = numbers[name];
  commandChanged();
}

function commandChanged() {
  const what = $("what").value;
  for (const part of document.querySelectorAll(".options")) part.hidden = part.dataset.for !== what;
  $("times-box").hidden = what !== "batch";
  $("run").textContent = what === "show" ? "Show" : "Run";
  tellAudited();
}

function tellAudited() {
  $("audited").textContent = open.given ? `against ${open.given.cfg.name}${open.given.dat ? ` and ${open.given.dat.name}` : ""}`
    : results.record ? "against the record of the last run here" : "opens the cfg and dat of a record first";
}
