// ---- results: what came of a call

const results = (() => {
  let listing = "", record = null, files = [];
  let last = null; // the case of the last call, as it was then
  let drawn = null; // { made, picture } of what is drawn; `made` is null of a record from files
  let scanned = null, batched = null; // what the picture of a scan is made of, and the rows of a batch

  // ---- the plot

  const views = make("select", { id: "kind", "aria-label": "What is drawn of the record" },
    make("option", { value: "time", textContent: "over the time" }), make("option", { value: "spectrum", textContent: "the spectrum of" }),
    make("option", { value: "pair", textContent: "one over another:" }));
  const up = make("select", { id: "kind-up", "aria-label": "Channel" }),
    across = make("select", { id: "kind-across", "aria-label": "over the channel" });
  const viewTools = make("span", { class: "many" }, views, up, across);
  const logarithmic = make("input", { id: "log", type: "checkbox" }),
    logLabel = make("label", { id: "log-label" }, logarithmic, "logarithmic");
  const panel = new Panel($("tab-plot"), { save, name: () => open.name, extra: [viewTools, logLabel, ...references.tools] });
  for (const it of [views, up, across]) it.onchange = () => redraw();
  logarithmic.onchange = () => drawScan(true);

  // Draws the record that is shown in the way that is chosen: over the time, its spectrum, one channel over another.
  function redraw(keeps = true) {
    const it = drawn?.record;
    if (!it) return;
    const chosen = views.value, axis = panel.picture?.kind === "record" ? panel.picture.axes[0] : null;
    const [from, to] = axis ? [axis.from * axis.seconds, axis.to * axis.seconds] : drawn.part ?? [-Infinity, Infinity];
    drawn.part = [from, to];
    up.hidden = chosen === "time";
    across.hidden = chosen !== "pair";
    try {
      const picture = chosen === "spectrum" ? Pictures.ofSpectrum(it, up.value, from, to)
        : chosen === "pair" ? Pictures.ofPair(it, across.value, up.value, from, to)
        : Pictures.ofRecord(it, drawn.title);
      draw(picture, keeps);
    } catch (fault) {
      views.value = "time";
      say(`It can't be drawn: ${fault.message}.`, { stays: true });
      redraw();
    }
  }

  // Shows a record, with the view and the choice of channels of the one before where it is of the same case.
  function drawRecord(it, title, made, keeps) {
    drawn = { made, record: it, title, name: open.name, part: keeps ? drawn?.part : undefined };
    const names = it.channels.map(channel => channel.name);
    for (const select of [up, across]) {
      const was = select.value;
      select.replaceChildren(...names.map(name => make("option", { value: name, textContent: name })));
      if (names.includes(was)) select.value = was;
    }
    if (!keeps || !names.includes(up.value)) views.value = "time";
    redraw(keeps);
  }

  function drawScan(keeps) {
    if (!scanned) return;
    const log = logarithmic.checked && scanned.found.points.every(it => it.frequency > 0);
    draw(Pictures.ofScan(scanned.found, scanned.title, log), keeps);
  }

  function draw(picture, keeps = false) {
    viewTools.hidden = !drawn?.record?.channels.length || !["record", "pair", "spectrum"].includes(picture?.kind);
    logLabel.hidden = picture?.kind !== "scan";
    references.shown(picture, drawn?.record ?? null);
    Pictures.putBehind(picture, references.list());
    panel.show(picture, keeps);
    compare.show();
  }

  // The references are others, or stand elsewhere.
  function referencesChanged() {
    Pictures.putBehind(panel.picture, references.list());
    panel.tellReference();
    panel.changed();
    compare.show();
  }

  // ---- whether the results are those of the cards that stand here

  const isSame = it => it.text === editor.text() && (it.what !== "batch" || it.times === $("times").value);

  function aged() {
    const old = Boolean(last) && !isSame(last), other = !old && last && drawn?.made && drawn.made !== last;
    $("right").classList.toggle("stale", old);
    const said = old ? "These results are of other cards than those that stand here: Ctrl+Enter runs these."
      : other ? `The plot is of ${drawn.made.what === "run" ? "a run" : drawn.made.what} before, not of this ${last.what}.` : "";
    if ($("stale").textContent !== said) $("stale").textContent = said;
    $("stale").hidden = !said;
  }

  // ---- the tabs

  const tabs = [...document.querySelectorAll("[role=tab]")];
  function choose(id, focus) {
    for (const tab of tabs) {
      const is = tab.id === id;
      tab.setAttribute("aria-selected", is);
      tab.tabIndex = is ? 0 : -1;
      $(tab.getAttribute("aria-controls")).hidden = !is;
      if (is && focus) tab.focus();
    }
    if (id === "for-plot") panel.changed();
    if (id === "for-listing") showListing();
    if (id === "for-manual") manual.begin();
    if (id === "for-compare") compare.show();
  }
  tabs.forEach(tab => {
    tab.onclick = () => choose(tab.id);
    tab.onkeydown = event => {
      const by = { ArrowRight: 1, ArrowLeft: -1 }[event.key], seen = tabs.filter(it => !it.hidden);
      if (by) choose(seen[(seen.indexOf(tab) + by + seen.length) % seen.length].id, true);
    };
  });

  // ---- the listing

  const MOST_LINES = 4000;
  let listed = null, chosen = null;
  function showListing() {
    if (listed === listing || $("tab-listing").hidden) return;
    listed = listing;
    chosen = null;
    const lines = listing.split("\n");
    if (lines[lines.length - 1] === "") lines.pop();
    const parts = lines.slice(0, MOST_LINES).map((text, place) => {
      const line = /^(?:warning, )?line (\d+)\b/.exec(text)?.[1] ?? "";
      const kind = text.startsWith("warning") ? "warned" : /^BAD CARD/.test(text) ? "refused" : "";
      const element = make("div", { id: `listed-${place}`, textContent: text, class: kind, role: "option" });
      if (line) element.dataset.line = line;
      return element;
    });
    if (lines.length > MOST_LINES) parts.push(make("div",
      { textContent: `.. and ${lines.length - MOST_LINES} lines more: save them under Files` }));
    $("listing").replaceChildren(...parts);
    follow(editor.place().line);
  }
  const gotoListed = element => {
    const line = element?.dataset?.line;
    if (line) editor.goto(Number(line), 1);
  };
  $("listing").onclick = event => gotoListed(event.target);
  $("listing").onkeydown = event => {
    const by = { ArrowDown: 1, ArrowUp: -1 }[event.key], all = $("listing").children;
    if (event.key === "Enter") gotoListed(chosen);
    else if (by && all.length) {
      const place = Math.min(all.length - 1, Math.max(0, [...all].indexOf(chosen) + by));
      chosen?.classList.remove("chosen");
      chosen = all[place];
      chosen.classList.add("chosen");
      chosen.scrollIntoView({ block: "nearest" });
      $("listing").setAttribute("aria-activedescendant", chosen.id);
    } else return;
    event.preventDefault();
  };
  function follow(line) {
    if ($("tab-listing").hidden) return;
    for (const element of $("listing").children) {
      element.classList.toggle("here", element.dataset.line === String(line) && !element.classList.contains("warned"));
    }
  }

  // The names of the case's nodes and variables, and its analog channels with their units, by the listing.
  const names = () => [...listing.matchAll(/^(?:node|variable) \d+, name=(\S+)$/gm)].map(it => it[1]);
  const unitOf = name => ({ I: "A", T: "" })[name[0]] ?? "V";
  const analogs = () => [...listing.matchAll(/^channel \d+, .*name=(.*), analog channel=\d+$/gm)]
    .map(([, name]) => ({ name, unit: unitOf(name) }));
  const switches = () => [...listing.matchAll(/^line (\d+), time switch,/gm)].map(it => Number(it[1]));

  // ---- the note, the text, the rows and the files

  // Of what a note begins with: the section of the manual, and its page.
  const SECTIONS = [
    [/^(PHASOR )?ENDED/, "The note and the exit status", "record"], [/REFUSED LINE/, "Which cases have one", "tools"],
    [/^(AUDIT )?DIFFERS|^AUDIT/, "The first difference", "tools"],
    [/^BAD ROW/, "Which tables are refused", "tools"], [/^BAD CARD/, "Which fault is answered", "cards"],
  ];

  function tellNote(kind, note, said) {
    $("note").className = kind;
    const parts = [];
    if (note) parts.push(make("code", { textContent: note }));
    if (said) parts.push(make("pre", { class: "said", textContent: said, tabIndex: 0 }));
    const section = kind === "bad" && note && SECTIONS.find(([begins]) => begins.test(note));
    if (section) {
      const button = make("button", { type: "button", textContent: "Manual" });
      button.onclick = () => manual.show(section[1], section[2]);
      parts.push(button);
    }
    $("note").replaceChildren(...parts);
  }

  function tableOf(element, heads, rows, press) {
    element.replaceChildren(
      make("thead", {}, make("tr", {}, ...heads.map(text => make("th", { textContent: text, scope: "col" })))),
      make("tbody", {}, ...rows.map(cells => {
        const row = make("tr", {}, ...cells.map(it => it instanceof Node ? make("td", {}, it) : make("td", { textContent: it })));
        if (press) {
          row.tabIndex = 0;
          row.onclick = () => press(row.sectionRowIndex);
          row.onkeydown = event => { if (event.key === "Enter") press(row.sectionRowIndex); };
        }
        return row;
      })),
    );
  }

  function listFiles() {
    const every = [...files, { name: `${open.name}.listing.txt`, bytes: new TextEncoder().encode(listing),
      what: "what was read of the cards as they stand" }];
    tableOf($("files"), ["file", "bytes", "what", ""], every.map(it => {
      const button = make("button", { type: "button", textContent: "Save" });
      button.onclick = () => save(it.name, it.bytes);
      return [it.name, it.bytes.length.toLocaleString("en"), it.what, button];
    }));
  }

  // The rows of a batch or of a varied field, with statistics; a row that is taken is opened as a case of its own.
  function showRows(channels, rows, name, opened) {
    $("for-rows").hidden = !rows.length;
    if (!rows.length) return;
    const nameOf = (it, unit) => unit ? `${it.name}, ${unit}` : it.name;
    const named = units => [rows[0].head, "how it ended", ...channels.map((it, place) => nameOf(it, units[place]))];
    const scales = channels.map((it, place) => {
      const [factor, base] = Rules.baseUnit(it.unit), most = factor * Rules.greatest(rows.map(row => row.peaks[place] ?? 0));
      const [divisor, unit] = Rules.shownUnit(base, most);
      return { factor: factor / divisor, unit };
    });
    const told = scales.map(({ factor }, place) => Study.statistics(rows.map(it => it.peaks[place] * factor)));
    const lines = [["greatest", "greatest"], ["at most 2 % exceed", "exceeded"], ["mean", "mean"], ["deviation", "deviation"]]
      .map(([label, key]) => [label, "", ...told.map(it => it ? number(it[key]) : "–")]);
    const table = $("rows-table");
    tableOf(table, named(scales.map(it => it.unit)),
      rows.map(it => [it.label, it.how, ...scales.map(({ factor }, place) => number(it.peaks[place] * factor))]),
      at => opened(rows[at]));
    table.createTFoot().append(...lines.map(cells => make("tr", {}, ...cells.map(text => make("th", { textContent: text })))));
    table.createCaption().textContent = "The greatest magnitude of each channel. A row that is pressed opens and runs.";
    const quoted = text => /[",\n]/.test(text) ? `"${text.replace(/"/g, '""')}"` : text;
    const exact = it => channels.map((_, place) => it.words?.[place] ?? it.peaks[place] ?? "");
    const every = [named(channels.map(it => it.unit)), ...rows.map(it => [it.label, it.how, ...exact(it)])];
    const csv = every.map(cells => cells.map(text => quoted(String(text))).join(",") + "\n").join("");
    files.push({ name: `${name}.rows.csv`, bytes: new TextEncoder().encode(csv), what: "the rows and their peaks" });
  }

  const openVariant = (it, name, text) => openOther({ name, text, what: "run", base: { text: null }, latin: it.latin,
    lineEnd: it.lineEnd });

  // Of a summary of many lines, what it comes to.
  function summed(what, { summary }) {
    if (what === "scan") {
      const { points, resonances } = Records.readScan(summary);
      const found = resonances.length ? `resonances at ${resonances.map(number).join(", ")} Hz` : "no resonance";
      return `${points.length.toLocaleString("en")} frequencies; ${found}.`;
    }
    if (what !== "batch") return "";
    const { rows, ended } = Records.readBatch(summary);
    const early = ended.slice(0, 10).map(it => it.row).join(", ") + (ended.length > 10 ? " .." : "");
    return `${rows.length.toLocaleString("en")} rows; ${ended.length ? `${ended.length} ended early (${early})` : "all ran to their ends"}.`;
  }

  // ---- what a call gave

  async function take(made, call, told, byItself) {
    const { what, name } = made, before = last;
    last = made;
    if (told.fault) {
      tellNote("bad", "", told.fault);
      aged();
      return;
    }
    if (told.varied) takeVaried(made, told.varied);
    else await takeCall(made, call, told, byItself, before);
    files.push({ name: `${name}.case`, bytes: bytesOf(made.text), what: "the cards of these results" });
    listFiles();
    tellAudited();
    aged();
    titled(told.status === 0 ? "✓ " : "✗ ");
  }

  async function takeCall(made, call, told, byItself, before) {
    const { status } = told, { what, name } = made;
    const note = told.note ? Records.text(told.note) : "", summary = told.summary ? Records.text(told.summary) : "";
    const shown = note || (summary.length < 300 ? summary : "");
    const said = status === 0 ? summed(what, told) : await meaning(call, status, note || summary);
    tellNote(status === 0 ? "good" : "bad", what === "show" ? "" : shown.trimEnd(), said);
    const refused = /REFUSED LINE (\d+)/.exec(note || summary);
    if (status === 7 && refused) checking.also({ kind: "refused", line: Number(refused[1]), from: 0, to: 0,
      text: `${what}: ${said.trim().split("\n").at(-1).replace(/\.$/, "") || "refused"}` });
    $("text").textContent = summary.length + note.length > 300000 ? (summary + note).slice(0, 300000)
      + "\n.. the rest is in the file" : summary + note;
    const phasors = what === "phasor" && status === 0 ? Records.readPhasors(told.note ?? told.summary) : [];
    $("phasors").hidden = !phasors.length;
    tableOf($("phasors"), ["", "magnitude", "angle in degrees", "real part", "imaginary part"],
      phasors.map(it => [it.what, ...[it.magnitude, it.angle, it.re, it.im].map(number)]));
    files = [];
    $("for-rows").hidden = true;
    if (told.cfg) files.push({ name: `${name}.cfg`, bytes: told.cfg, what: "the record's configuration (COMTRADE)" });
    if (told.dat) files.push({ name: `${name}.dat`, bytes: told.dat, what: "the record's samples" });
    if (told.note) files.push({ name: `${name}.note.txt`, bytes: told.note, what: "the note" });
    if (told.summary) files.push({ name: `${name}.${what}.txt`, bytes: told.summary, what: `what ${what} prints` });
    const keeps = drawn?.name === name && before !== null, tab = byItself ? () => {} : choose;
    if (what === "run" && (status === 0 || status === 3)) worth.of(made);
    if (told.record) {
      if (record) references.before(record.parsed, record.name);
      record = { name, parsed: told.record, cfg: { name: `${name}.cfg`, bytes: told.cfg }, dat: { name: `${name}.dat`, bytes: told.dat } };
      drawRecord(told.record, plainName(name), made, keeps);
      tab("for-plot");
    } else if (what === "scan" && status === 0) {
      drawn = { made, name };
      scanned = { found: Records.readScan(told.summary), title: `${plainName(name)}: impedance` };
      drawScan(keeps);
      tab("for-plot");
    } else if (what === "batch" && status === 0) {
      takeBatch(made, Records.readBatch(told.summary), keeps);
      tab("for-plot");
    } else if (what === "show") tab("for-listing");
    else tab("for-text");
  }

  function takeBatch(made, found, keeps) {
    const channels = analogs(), table = Study.rowsOf(made.times), lines = switches();
    drawn = { made, name: made.name };
    batched = found;
    draw(Pictures.ofBatch(found, channels, `${plainName(made.name)}: peaks`), keeps);
    showRows(channels.slice(0, found.peaks[0]?.length ?? 0),
      found.rows.map(it => ({ ...it, head: "row", label: String(it.row) })), made.name, it => {
      try {
        openVariant(made, `${made.name}_row_${it.row}`, Study.withTimes(made.text.split("\n"), lines, table[it.row - 1]).join("\n"));
      } catch (fault) {
        say(`The times of row ${it.row} don't fit their cards: ${fault.message}.`, { stays: true });
      }
    });
  }

  function takeVaried(made, { rows, place, channels }) {
    const label = `columns ${place.from}-${place.to} of line ${place.line}`, bad = rows.filter(it => it.status !== 0);
    tellNote(bad.length ? "bad" : "good", "",
      `${rows.length} runs over ${label}; ${bad.length ? `${bad.length} did not run to their ends` : "all ran to their ends"}.`);
    $("text").textContent = rows.map(it => `${it.value}: ${it.fault ?? it.note}\n`).join("");
    $("phasors").hidden = true;
    files = [];
    drawn = { made, name: made.name };
    draw(Pictures.ofVaried({ rows, channels }, label, `${plainName(made.name)}: ${label}`));
    showRows(channels, rows.map(it => ({ ...it, head: "value", label: it.value, how: it.fault ?? it.note.split("\n")[0] })), made.name,
      it => openVariant(made, `${made.name}_${it.value.replace(/[^\w.+-]/g, "")}`, it.text));
    choose(panel.picture ? "for-plot" : "for-rows");
  }

  return {
    take, follow, tellNote, aged, referencesChanged, names, switches, choose, panel,
    isOld: () => Boolean(last) && !isSame(last),
    get listing() { return listing; },
    get record() { return record; },
    get drawn() { return drawn?.record ?? null; },
    get batch() { return batched; },
    axis: (place = 0) => panel.picture?.axes[place],
    // The case has another name, as one that is kept for the first time: what is drawn is of it still.
    named(name) { if (drawn) drawn.name = name; },
    setListing(text) {
      listing = text;
      showListing();
      listFiles();
    },
    forget() {
      record = drawn = last = scanned = batched = null;
      files = [];
      $("text").textContent = "";
      $("phasors").hidden = true;
      $("for-rows").hidden = true;
      worth.forget();
      references.forget();
      tellNote("", "", "");
      draw(null);
      listFiles();
      aged();
    },
    // A record that was opened from files: it is drawn, and stays as a reference.
    showGiven(parsed, name) {
      if (record) references.before(record.parsed, record.name);
      references.pin(parsed, name);
      drawRecord(parsed, name, null, false);
      choose("for-plot");
      const counted = (count, what) => `${count.toLocaleString("en")} ${what}${count === 1 ? "" : "s"}`;
      const { times, channels, states } = parsed;
      const held = [counted(times.length, "sample"), counted(channels.length, "channel"), counted(states.length, "state")];
      tellNote("", "", [`${name}: ${held.join(", ")}`, ...parsed.told].join("\n"));
    },
  };
})();
