// ---- refusals and warnings, beside the cards as they are written

// What the program says of a text of its own, by the words behind `show`.
const explaining = new Caller();
async function explained(words, files = []) {
  const told = await explaining.call({ show: true, words, files });
  return told.summary ? Records.text(told.summary).trimEnd() : "";
}

// Why a card is refused: { line, from, to, text, more }, by what `show --fields` says of it.
function refusalOf({ line, from, to, name, note, why }) {
  const reason = /^BAD CARD LINE \d+ COLUMN \d+ REASON \d+ (\w+)/.exec(note)?.[1];
  const lines = why.split("\n"), marked = lines.findIndex(text => /^ *\^ /.test(text));
  const said = {
    kind: "refused", line: Math.min(line, editor.count()), text: marked < 0 ? lines[0] : lines[marked].trim().slice(2),
    more: lines.slice(Math.max(marked, 0) + 1).join(" "),
  };
  if (!editor.text().trim()) return { ...said, from: 0, to: 0, text: "there are no cards", more: "New begins with a small whole case." };
  if (reason === "MissingSection" || reason === "TooManyLines") return { ...said, from: 0, to: 0 };
  if (reason === "ByteOutside" || reason === "PastColumn80") return { ...said, from, to: from };
  const card = editor.card(line), field = name && card.fields.find(it => it.from === from);
  if (field) {
    const takes = cards.describe(card, field);
    return { ...said, from, to, text: `${name}: ${said.text}`, more: [takes && `${name} takes: ${takes}.`, said.more].filter(Boolean).join(" ") };
  }
  const word = /^\s*\S*/.exec(editor.line(line).slice(from - 1))[0];
  return { ...said, from, to: name ? to : from - 1 + Math.max(1, word.length) };
}

// The warnings of a listing; of one that names a channel, the line of the card that asks for it.
function warningsOf(listing) {
  const asks = new Map([...listing.matchAll(/^line (\d+), asks for channel=(\d+)$/gm)].map(it => [it[2], Number(it[1])]));
  return [...listing.matchAll(/^warning, (?:line (\d+)|channel (\d+))(?:, columns? (\d+)(?:-(\d+))?)?, (.*)$/gm)].map(it => ({
    kind: "warned", line: it[1] ? Number(it[1]) : asks.get(it[2]) ?? 1, from: Number(it[3] ?? 0), to: Number(it[4] ?? it[3] ?? 0),
    text: (it[2] ? `channel ${it[2]}: ` : "") + it[5],
  }));
}

const checking = (() => {
  const caller = new Caller(), trying = new Caller();
  let timer = 0, found = [], at = -1, checked = null, under = Promise.resolve();

  // What `show` says behind some words of a text.
  const shown = (words, text) => caller.call({ show: true, words: [...words, "case"], files: [{ name: "case", bytes: bytesOf(text) }] });
  const printed = told => Records.text(told.summary ?? told.note ?? new Uint8Array());

  async function now() {
    clearTimeout(timer);
    if (!program.module) return;
    const text = editor.text();
    checked = text;
    const told = await shown(["--fields"], text);
    if (text !== editor.text()) return;
    if (told.fault) {
      say(told.fault);
      return;
    }
    const answer = cards.read(printed(told));
    if (told.status === 2) { // too long a file: its note alone is told
      const note = printed(told), why = printed(await shown(["--why"], text));
      answer.refused = { line: Number(/LINE (\d+)/.exec(note)?.[1] ?? 1), from: 0, to: 0, name: "", note, why };
    }
    if (text !== editor.text()) return;
    editor.setCards(answer.cards);
    const listing = printed(await shown([], text));
    if (text !== editor.text()) return;
    const refusal = answer.refused && refusalOf(answer.refused);
    found = refusal ? [refusal] : warningsOf(listing);
    at = -1;
    editor.setMarks(found);
    tell();
    results.setListing(listing);
    live.settled(!refusal);
    if (!refusal) return;
    mend(refusal, text);
    lookBehind(answer, text);
  }

  // The cards behind a refused one: the program is asked again over a text with a blameless card in its place, some times.
  async function lookBehind({ cards: found, refused }, text) {
    const MOST = 20, lines = text.split("\n"), all = new Map(found);
    for (let round = 0; round < MOST && refused; round++) {
      const { line } = refused, last = [...all.keys()].at(-1); // where all lines are told, its sense alone is refused
      const other = last === line ? cards.standIn(lines[line - 1], all.get(line)) : null;
      if (other === null) break;
      lines[line - 1] = other;
      const told = await shown(["--fields"], lines.join("\n"));
      if (told.fault || text !== editor.text()) return;
      const answer = cards.read(printed(told));
      for (const [number, card] of answer.cards) if (number > line) all.set(number, card);
      ({ refused } = answer);
    }
    editor.setCards(all);
  }

  const lineRefused = listing => Number(/^BAD CARD LINE (\d+)/m.exec(listing)?.[1] ?? Infinity);

  // Tries what the refused card may have meant, and offers what the program then reads: the card itself isn't refused any more.
  async function mend(refusal, text) {
    const names = [...new Set([...results.names(), ...text.match(/\b[A-Z][A-Z0-9]{0,5}\b/g) ?? []])];
    const offered = [];
    const own = fix => !offered.some(it => it.lines.join() === fix.lines.join());
    for (const fix of Fixes.of(editor.lines(), refusal, names)) {
      const files = [{ name: "case", bytes: bytesOf(fix.lines.join("\n")) }];
      const told = await trying.call({ show: true, words: ["case"], files });
      if (text !== editor.text()) return;
      const line = told.status === 2 ? lineRefused(Records.text(told.summary ?? told.note)) : Infinity;
      if (told.fault || !own(fix) || line <= refusal.line + (fix.lines.length > editor.count() ? 1 : 0)) continue;
      offered.push(fix);
      if (offered.length === 3) break;
    }
    refusal.fixes = offered;
    if (offered.length) tell();
  }

  const columnsOf = it => it.to > it.from ? `columns ${it.from}-${it.to}` : `column ${it.from}`;
  const placeOf = it => `Line ${it.line}${it.from ? `, ${columnsOf(it)}` : ""}`;
  const sentence = text => /[.!?]$/.test(text) ? text : `${text}.`;

  function tell() {
    $("messages").replaceChildren(...found.slice(0, 200).map(it => {
      const button = make("button", { type: "button", textContent: `${placeOf(it)}: ${sentence(it.text)}${it.more ? ` ${it.more}` : ""}` });
      button.onclick = () => editor.goto(it.line, it.from || 1, it.to ? it.to + 1 : 1);
      const does = (label, press) => {
        const made = make("button", { type: "button", textContent: label });
        made.onclick = press;
        return made;
      };
      const { section } = editor.card(it.line);
      const more = [
        ...(it.fixes ?? []).map(fix => does(`${fix.label[0].toUpperCase()}${fix.label.slice(1)}`,
          () => editor.change(fix.lines.join("\n")))),
        does("Manual", () => it.kind === "warned" ? manual.show("Warnings", "show")
          : manual.show(section ?? "The order of the cards", section ? undefined : "cards")),
      ];
      return make("li", { class: it.kind }, button, more.length ? make("div", { class: "more" }, ...more) : null);
    }));
    const refused = found.find(it => it.kind === "refused"), said = refused ? `${placeOf(refused)}: ${sentence(refused.text)}` : "";
    if ($("refused").textContent !== said) $("refused").textContent = said;
  }

  const start = () => { under = now(); };

  return {
    now: start,
    soon() {
      clearTimeout(timer);
      timer = setTimeout(start, 250);
    },
    // The listing is that of the cards as they stand, or as good as it gets within a second.
    async settled() {
      if (checked !== editor.text()) start();
      await Promise.race([under, new Promise(done => setTimeout(done, 1000))]);
    },
    // What a command refuses of the cards, though they are read well.
    also(it) {
      found = [it, ...found.filter(other => other.kind !== "refused")];
      editor.setMarks(found);
      tell();
    },
    next() {
      if (!found.length) return say("Nothing is refused, and nothing is warned of.");
      at = (at + 1) % found.length;
      const it = found[at];
      return editor.goto(it.line, it.from || 1, it.to ? it.to + 1 : 1);
    },
  };
})();
