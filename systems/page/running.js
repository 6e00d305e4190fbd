// ---- a call

const running = new Caller(), previewing = new Caller(), many = new Callers();
let clock = 0, begun = 0, studying = false;
let left = () => ""; // how long the run still takes, in words
const isRunning = () => Boolean(running.done) || studying;

function busy(is, text) {
  clearInterval(clock);
  $("progress").classList.toggle("busy", is);
  $("stop").disabled = !is;
  $("progress").textContent = text;
  titled(is ? "… " : "");
  if (!is) return;
  begun = performance.now();
  left = () => "";
  clock = setInterval(() => { $("progress").textContent = `${text}, ${seconds().toFixed(1)} s${left()}`; }, 100);
}

const seconds = () => (performance.now() - begun) / 1000;

function stop() {
  live.stop();
  if (!isRunning()) return;
  running.stop();
  previewing.stop();
  many.stop();
  studying = false;
  busy(false, `stopped after ${seconds().toFixed(1)} s`);
}

// How much room a record may want, by the listing of the case.
function roomFor(listing) {
  const found = /^record, .*samples=(\d+), analog channels=(\d+), status channels=(\d+)/m.exec(listing);
  return found ? Math.max(1 << 20, Number(found[1]) * (24 + 8 * Number(found[2]) + 2 * Number(found[3]))) : 1 << 22;
}

const inputOf = (name, text) => ({ name, bytes: name === "case" ? bytesOf(text) : new TextEncoder().encode(text) });
const callOfRun = text => ({ words: ["run", "case", "cfg", "dat"], files: [inputOf("case", text)], room: roomFor(results.listing) });

// The words and files of the command that is chosen; null where something is missing, which is said.
function asked() {
  const what = $("what").value, files = [inputOf("case", editor.text())];
  switch (what) {
    case "run": return callOfRun(editor.text());
    case "batch": return { words: ["batch", "case", "times"], files: [...files, inputOf("times", $("times").value)] };
    case "phasor": return { words: ["phasor", "case"], files };
    case "scan": return { words: ["scan", "case", ...["scan-first", "scan-last", "scan-by"].map(id => $(id).value.trim())], files };
    case "trial": return { words: ["trial", $("trial-number").value.trim()], files: [] };
    case "show": return { show: true, words: ["case"], files };
    case "vary": return {};
    default: {
      const record = open.given?.dat ? open.given : results.record;
      if (record) return { words: ["audit", "case", "cfg", "dat"], files: [...files, { name: "cfg", bytes: record.cfg.bytes },
        { name: "dat", bytes: record.dat.bytes }] };
      say("An audit compares a record with the case: open its cfg and dat, or run the case first.");
      $("file").click();
      return null;
    }
  }
}

// Runs what is chosen. Where it runs `byItself`, the tab that is seen stays.
async function run(byItself = false) {
  if (!program.module) return;
  await checking.settled();
  const call = asked();
  if (!call) return;
  worth.forget(byItself);
  const made = { ...caseNow(), latin: open.latin, lineEnd: open.lineEnd };
  busy(true, made.what === "show" ? "reading" : "running");
  const told = made.what === "vary" ? await varying() : made.what === "batch" ? await inParts(call)
    : await (tellLeft(call, made), running.call(call));
  previewing.stop();
  if (!told) return;
  const took = seconds();
  live.took(1000 * took);
  busy(false, `${took < 10 ? took.toFixed(2) : took.toFixed(1)} s`);
  await results.take(made, call, told, byItself);
}

// ---- how long a run will take

// The cards of a case that ends after a part of its time; null where its card of times can't be told.
function shortened(lines, part) {
  const line = lines.findIndex((_, at) => editor.card(at + 1).kind === "the first miscellaneous card");
  const card = lines[line]?.padEnd(16), [step, end] = card
    ? [card.slice(0, 8), card.slice(8, 16)].map(it => Number(it.replace(/d/i, "E"))) : [];
  if (!(end * part >= 20 * step)) return null;
  const text = (end * part).toExponential(2).replace("e", "E").padStart(8);
  return [...lines.slice(0, line), card.slice(0, 8) + text.slice(-8) + card.slice(16), ...lines.slice(line + 1)].join("\n");
}

// Of a run that lasts longer than two seconds a fiftieth is run beside it: a longer run begins as it does, so that its time tells
// about how long the whole one takes.
function tellLeft(call, made) {
  const PART = 0.02;
  if (made.what !== "run") return;
  setTimeout(async () => {
    const text = running.done && shortened(made.text.split("\n"), PART), since = begun;
    if (!text) return;
    const told = await previewing.call({ ...callOfRun(text), bare: true });
    if (!running.done || since !== begun || told.fault || told.status !== 0) return;
    const whole = told.ms / PART / 1000;
    left = () => {
      const rest = whole - seconds();
      return rest > 90 ? `, about ${Math.round(rest / 60)} min left` : rest > 1 ? `, about ${Math.ceil(rest)} s left` : "";
    };
  }, 2000);
}

// ---- many runs, in as many workers as there are processors

// How many steps a run has, by the listing.
const stepsOf = listing => Number(/^run, .*steps=(\d+)/m.exec(listing)?.[1] ?? 0);

async function together(calls, what) {
  studying = true;
  let done = 0;
  left = () => `, ${done} of ${calls.length} ${what}`;
  const found = await many.all(calls, () => { done++; });
  studying = false;
  return found;
}

// A batch in parts; one that is short, or that is refused, as it stands.
async function inParts(call) {
  const MOST_AT_ONCE = 100_000; // steps
  const rows = Study.rowsOf($("times").value), workers = navigator.hardwareConcurrency || 2;
  const steps = rows.length * stepsOf(results.listing);
  if (workers < 2 || rows.length < 8 || rows.length > 1000 || steps < MOST_AT_ONCE) return running.call(call);
  const calls = Study.parts(rows, workers).map(some => () => ({ words: call.words,
    files: [call.files[0], inputOf("times", some.map(it => it + "\n").join(""))] }));
  const told = await together(calls, "parts");
  if (!told) return null;
  if (told.some(it => it.fault || it.status !== 0)) return running.call(call);
  const summary = Study.joined(told.map(it => Records.text(it.summary)));
  return { ...told[0], summary: new TextEncoder().encode(summary) };
}

// A run for each value of a field: { rows: [{ value, text, note, peaks }], channels }.
async function varying() {
  let values, texts;
  const number = id => Number($(id).value), place = { line: number("vary-line"), from: number("vary-from"), to: number("vary-to") };
  try {
    values = Study.valuesOf($("vary-values").value);
    texts = values.map(value => Study.varied(editor.lines(), place, value).join("\n"));
  } catch (fault) {
    busy(false, "");
    say(`${fault.message[0].toUpperCase()}${fault.message.slice(1)}.`, { stays: true });
    return null;
  }
  const told = await together(texts.map(text => () => callOfRun(text)), "runs");
  if (!told) return null;
  const rows = told.map((it, at) => ({
    value: values[at], text: texts[at], fault: it.fault, status: it.status, note: it.note ? Records.text(it.note).trim() : "",
    peaks: it.record?.channels.map(channel => Study.peak(channel.values)) ?? [],
  }));
  return { status: 0, varied: { rows, place,
    channels: told.find(it => it.record)?.record.channels.map(({ name, unit }) => ({ name, unit })) ?? [] } };
}

// The field under the cursor is the one that is varied.
function takeField() {
  const { line, column } = editor.place(), [field] = cards.fieldsAt(editor.card(line), column);
  if (!field) return say("No field reads the column under the cursor.");
  $("vary-line").value = line;
  $("vary-from").value = field.from;
  $("vary-to").value = field.to;
  if (!$("vary-values").value) $("vary-values").value = editor.line(line).slice(field.from - 1, field.to).trim();
  $("vary-values").focus();
  return undefined;
}

// Writes a table of scattered closing times.
function writeTable() {
  const count = results.switches().length, number = id => Number($(id).value);
  if (!count) return say("The case has no time switch.");
  const words = { rows: number("scatter-rows"), seed: number("scatter-seed"), begin: number("scatter-from"),
    cycle: number("scatter-cycle"), sigma: number("scatter-sigma"), count };
  const isRight = Object.values(words).every(it => Number.isFinite(it) && it >= 0) && words.rows >= 1 && words.rows <= 1000;
  if (!isRight) return say("A table has 1 to 1,000 rows, and no time below 0.");
  const head = `# ${words.rows} rows, from ${words.begin} s on over ${words.cycle} s, deviation ${words.sigma} s, seed ${words.seed}`;
  $("times").value = [head, ...Study.scattered(words)].join("\n") + "\n";
  store.soon();
  results.aged();
  return undefined;
}
