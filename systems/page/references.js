// ---- references: records that stand in grey behind the one that is drawn, and what lies between them

// A reference is { name, record, offset in s (added to its times), shown }. The run before is one as long as its box is ticked; others
// are pinned.
const references = (() => {
  let pinned = [], before = null, drawn = null;
  const behind = make("input", { id: "behind", type: "checkbox", checked: true });
  const behindLabel = make("label", { id: "behind-label", hidden: true }, behind, "the run before");
  const pinButton = make("button", { id: "pin", type: "button", textContent: "Pin this one" });
  const table = make("table", { "aria-label": "References" });
  const menu = make("details", { class: "menu", id: "references", hidden: true }, make("summary", { textContent: "References" }),
    make("div", {}, pinButton, table));

  behind.onchange = () => results.referencesChanged();
  pinButton.onclick = () => {
    const used = new Set(pinned.map(it => it.name)), base = drawn.title;
    let name = base;
    for (let count = 2; used.has(name); count++) name = `${base} ${count}`;
    pin(drawn.record, name);
    results.referencesChanged();
  };

  function pin(record, name) {
    pinned = [...pinned.filter(it => it.record !== record), { name, record, offset: 0, shown: true }];
    tell();
  }

  function tell() {
    table.hidden = !pinned.length;
    menu.firstChild.textContent = pinned.length ? `References (${pinned.length})` : "References";
    table.replaceChildren(
      make("thead", {}, make("tr", {}, ...["shown", "name", "ms later", ""].map(textContent => make("th", { textContent })))),
      make("tbody", {}, ...pinned.map(it => {
        const box = make("input", { type: "checkbox", checked: it.shown, "aria-label": `draw ${it.name}` });
        const name = make("input", { type: "text", value: it.name, "aria-label": "name" });
        const offset = make("input", { type: "number", step: "any", value: 1e3 * it.offset,
          "aria-label": `ms by which ${it.name} is moved` });
        const gone = make("button", { type: "button", textContent: "Remove" });
        const changed = does => () => {
          does();
          results.referencesChanged();
        };
        box.onchange = changed(() => { it.shown = box.checked; });
        name.onchange = changed(() => { it.name = name.value; });
        offset.onchange = changed(() => { it.offset = Number(offset.value) / 1e3 || 0; });
        gone.onclick = changed(() => {
          pinned = pinned.filter(other => other !== it);
          tell();
        });
        return make("tr", {}, make("td", {}, box), make("td", {}, name), make("td", {}, offset), make("td", {}, gone));
      })),
    );
  }

  return {
    pin, tell,
    tools: [behindLabel, menu],
    // The run before is this one.
    before(record, name) { before = { name: `${plainName(name)}, the run before`, record, offset: 0, shown: true }; },
    // Those that stand behind what is drawn, the pinned ones first.
    list: () => [...pinned.filter(it => it.shown), ...before && behind.checked ? [before] : []].filter(it => it.record !== drawn?.record),
    // All, for a comparison.
    every: () => [...pinned, ...before ? [before] : []].filter(it => it.record !== drawn?.record),
    // A record is drawn, or something that has no references.
    shown(picture, record) {
      drawn = record && { record, title: picture?.title || "record" };
      const has = picture?.kind === "record";
      behindLabel.hidden = !has || !before;
      menu.hidden = !has;
    },
    forget() {
      before = null;
      pinned = [];
      tell();
    },
  };
})();

// ---- compare: how far the record that is drawn lies from a reference

const compare = (() => {
  const box = $("tab-compare"), chosen = { reference: "", tolerance: 5, pairs: new Map() }; // by the name of a channel: { name, factor }
  const select = make("select", { "aria-label": "Reference" }),
    tolerance = make("input", { type: "number", min: 0, step: "any", value: 5, "aria-label": "tolerance in %" });
  const offset = make("input", { type: "number", step: "any", "aria-label": "ms by which the reference is moved" });
  const fit = make("button", { type: "button", textContent: "Find the shift", title: "The one by which all pairs together lie nearest" });
  const said = make("p", { class: "hint" }), table = make("table", { id: "compared", "aria-label": "Pairs of channels" });
  box.append(make("div", { class: "tools" }, make("label", {}, "with", select), make("label", {}, "moved by", offset, "ms"), fit,
    make("label", {}, "tolerance", tolerance, "%")), said, table);

  const reference = () => references.every().find(it => it.name === select.value) ?? null;
  const baseOf = (it, record) => {
    const factor = Rules.baseUnit(it.unit)[0];
    const times = it.skew ? record.times.map(time => time + it.skew) : record.times;
    return { times, values: factor === 1 ? it.values : it.values.map(value => value * factor) };
  };

  // The pairs of channels: those of one name, unless others are chosen.
  function pairs(one, other) {
    return one.channels.flatMap(it => {
      const own = chosen.pairs.get(it.name), name = own?.name ?? it.name, partner = other.channels.find(channel => channel.name === name);
      return [{ it, partner: partner ?? null, factor: own?.factor ?? 1 }];
    });
  }

  function show() {
    if (box.hidden) return;
    const one = results.drawn, all = references.every(), was = select.value;
    select.replaceChildren(...all.map(it => make("option", { value: it.name, textContent: it.name })));
    if (all.some(it => it.name === was)) select.value = was;
    const other = reference();
    said.textContent = !one ? "Run a case first." : !other
      ? "Run it once more, pin a run, or open a measured record: then both are compared here."
      : "At the reference's samples, as emtp compare does: RMS and the greatest distance beyond the band, in % of the reference.";
    table.hidden = !one || !other;
    fit.disabled = table.hidden;
    offset.value = other ? Number((1e3 * other.offset).toPrecision(9)) : 0;
    if (table.hidden) return;
    const rows = pairs(one, other.record).map(({ it, partner, factor }) => {
      const with_ = make("select", { "aria-label": `partner of ${it.name}` }, make("option", { value: "", textContent: "–" }),
        ...other.record.channels.map(({ name }) => make("option", { value: name, textContent: name })));
      with_.value = partner?.name ?? "";
      const by = make("input", { type: "text", value: factor ?? "fit", "aria-label": `factor of the partner of ${it.name}`,
        title: "a number, or fit" });
      with_.onchange = by.onchange = () => {
        const factor = by.value.trim() === "fit" ? null : Number(by.value);
        chosen.pairs.set(it.name, { name: with_.value, factor: Number.isFinite(factor) ? factor : 1 });
        show();
      };
      const found = partner && Measures.compare(baseOf(it, one), baseOf(partner, other.record),
        { shift: -other.offset, factor, tolerance: Number(tolerance.value) });
      const cells = !partner ? ["", "", "", "", "", ""] : !found ? ["fewer than 8 samples in common", "", "", "", "", ""]
        : [number(found.factor), found.rms.toFixed(2), found.peak.toFixed(2), found.beyond.toFixed(2), found.share.toFixed(2),
          found.within ? "WITHIN" : "BEYOND"];
      return make("tr", {}, make("td", { textContent: it.name }), make("td", {}, with_), make("td", {}, by),
        ...cells.map((textContent, at) => make("td", { textContent, class: at === 5 ? textContent.toLowerCase() : "" })));
    });
    const heads = ["channel", "with", "factor", "used", "RMS %", "peak %", "beyond %", "share %", ""];
    const head = make("tr", {}, ...heads.map(textContent => make("th", { textContent })));
    table.replaceChildren(make("thead", {}, head), make("tbody", {}, ...rows));
  }

  select.onchange = tolerance.onchange = show;
  offset.onchange = () => {
    const it = reference();
    if (!it) return;
    it.offset = Number(offset.value) / 1e3 || 0;
    references.tell();
    results.referencesChanged();
  };
  fit.onclick = () => {
    const one = results.drawn, other = reference();
    const own = pairs(one, other.record).filter(it => it.partner);
    const found = Measures.fitted(own.map(({ it, partner, factor }) => [baseOf(it, one), baseOf(partner, other.record), factor]));
    if (found === null) return say("No shift can be told: no pair has enough in common.");
    other.offset = -found;
    references.tell();
    results.referencesChanged();
    return undefined;
  };

  return { show };
})();
