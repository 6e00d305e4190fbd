// ---- panel: a plot with its tools, and the table of its channels

// An element with properties and children; text is text, never markup.
function make(tag, properties = {}, ...children) {
  const element = document.createElement(tag);
  for (const [name, value] of Object.entries(properties)) {
    if (name === "class") element.className = value;
    else if (name in element) element[name] = value;
    else element.setAttribute(name, value);
  }
  element.append(...children.filter(it => it !== null && it !== undefined && it !== ""));
  return element;
}

const number = value => Number.isFinite(value) ? String(Number(value.toPrecision(6))) : "–";

// Puts its elements into `root`. `save(name, bytes, type)` saves a file, `name()` begins its name, `extra` are more tools, and
// `chosen(item)` is called when the row of a curve of a batch or a study is taken.
class Panel {
  static FEW = 6; // channels, from which on they can be filtered

  constructor(root, { save, name, extra = [] }) {
    this.root = root;
    this.save = save;
    this.name = name;
    this.rows = [];
    const button = (id, text, title, press) => {
      const made = make("button", { id, type: "button", textContent: text, title });
      made.onclick = press;
      return made;
    };
    this.tools = [
      button("whole", "All", "All of the axis (0, or a double click)", () => this.plot.reset()),
      button("nearer", "+", "Half as much (+)", () => this.zoom(0.5)),
      button("farther", "−", "Twice as much (-)", () => this.zoom(2)),
      button("png", "PNG", "The plot as a picture", () => this.savePicture()),
      button("csv", "CSV", "The values of the channels that are drawn, in the part that is seen", () => this.saveValues()),
    ];
    this.tools[1].setAttribute("aria-label", "Zoom in");
    this.tools[2].setAttribute("aria-label", "Zoom out");
    this.filter = make("input", { id: "filter", type: "search", placeholder: "channels",
      "aria-label": "Draw the channels whose names have this" });
    this.filter.oninput = () => this.showOnly(it => it.name.toLowerCase().includes(this.filter.value.trim().toLowerCase()));
    this.many = make("span", { class: "many" },
      button("every", "all", "Draw all channels", () => this.showOnly(() => true)),
      button("none", "none", "Draw no channel", () => this.showOnly(() => false)), this.filter);
    this.bar = make("div", { class: "tools" }, ...this.tools, this.many, ...extra);
    this.empty = make("div", { id: "empty", textContent: "Run a case, and its record is drawn here." });
    this.canvas = make("canvas", {
      id: "canvas", tabIndex: 0, role: "application", "aria-describedby": "said",
      "aria-label": "Plot: arrow keys move the cursor, plus and minus zoom, star and slash zoom the values, 0 shows all, m sets a mark",
    });
    this.sheet = make("div", { class: "sheet" }, this.canvas);
    this.box = make("div", { class: "plot" }, this.sheet);
    this.under = make("div", { id: "under" }, document.createTextNode(""));
    this.said = make("div", { id: "said", class: "only-read", "aria-live": "polite" });
    this.table = make("table", { id: "channels", "aria-label": "Channels" });
    this.scroll = make("div", { class: "scroll", tabIndex: 0, role: "region", "aria-label": "Table of the channels" }, this.table);
    this.scroll.addEventListener("scroll", () => {
      this.top = this.scroll.scrollTop;
      this.tellValues();
    }, { passive: true });
    this.top = 0;
    this.at = null; // what stands under the cursor
    root.append(this.bar, this.empty, this.box, this.under, this.said, this.scroll);
    this.plot = new Plot(this.canvas, at => this.tell(at), () => this.tellExtremes());
    new ResizeObserver(() => this.fit()).observe(root);
    matchMedia("(prefers-color-scheme: dark)").addEventListener("change", () => this.plot.redraw());
    this.show(null);
  }

  get picture() {
    return this.plot.picture;
  }

  // Draws a picture, or nothing; where `keeps`, with the view, the mark and the choice of channels of the one before.
  show(picture, keeps = false) {
    const some = Boolean(picture?.panes.length);
    if (some && keeps && this.picture?.kind === picture.kind) {
      const hidden = new Set(Panel.items(this.picture).filter(it => it.shown === false).map(it => it.name));
      for (const it of Panel.items(picture)) if (hidden.has(it.name)) it.shown = false;
    }
    this.empty.hidden = some;
    for (const it of [this.box, this.under, this.scroll]) it.hidden = !some;
    for (const it of this.tools) it.disabled = !some;
    this.plot.show(some ? picture : null, keeps);
    this.fillTable();
    this.fit();
  }

  // All curves and bars of a picture.
  static items(picture) {
    return picture ? picture.panes.flatMap(pane => pane.curves ?? pane.bars) : [];
  }

  // The plot is as high as it has to be, or as the room that is left to it.
  fit() {
    if (!this.picture) return;
    const least = Plot.height(this.picture), scrolls = getComputedStyle(this.box).overflowY === "auto";
    this.seen = this.scroll.clientHeight || 1e4; // of the table, in points
    this.sheet.style.height = `${Math.max(least, scrolls ? this.box.clientHeight - 2 : 300)}px`;
  }

  // What is drawn changed: the channels, or what stands behind them.
  changed() {
    this.fit();
    this.plot.redraw();
    for (const { it, box } of this.rows) box.checked = it.shown !== false;
  }

  showOnly(wanted) {
    for (const it of Panel.items(this.picture)) it.shown = wanted(it);
    this.changed();
  }

  // One channel alone; once more, all.
  isolate(it) {
    const others = Panel.items(this.picture).filter(other => other !== it);
    const alone = it.shown !== false && others.every(other => other.shown === false);
    this.showOnly(other => alone || other === it);
  }

  zoom(factor) {
    for (const [place, axis] of (this.picture?.axes ?? []).entries()) {
      this.plot.zoom(axis, this.plot.cursor?.axis === place ? this.plot.cursor.x : Plot.at(axis, 0.5), factor);
    }
  }

  // ---- the table of channels

  fillTable() {
    const { picture } = this, batch = picture?.kind === "batch";
    this.rows = [];
    this.many.hidden = Panel.items(picture).length <= Panel.FEW;
    this.filter.value = "";
    if (!picture) {
      this.table.replaceChildren();
      return;
    }
    this.table.className = batch ? "batch" : "no-cursor no-mark";
    const heads = ["channel", "unit", ...(batch ? ["half of the rows up to", "at most 2 % exceed", "greatest", "in row"]
      : ["at the cursor", "from the mark", "less the reference", "least", "greatest"])];
    const body = [];
    for (const pane of picture.panes) {
      for (const it of pane.curves ?? pane.bars) {
        const box = make("input", { type: "checkbox", checked: it.shown !== false, "aria-label": `draw ${it.name}` });
        box.onchange = () => {
          it.shown = box.checked;
          this.changed();
        };
        const only = make("button", { type: "button", class: "name", textContent: it.name, title: "This one alone; once more, all" });
        only.onclick = () => this.isolate(it);
        const cells = heads.slice(1).map(() => make("td"));
        // values under the cursor stand in boxes of their own size, so that the table isn't laid out anew as they change
        const valueIn = cell => cell.appendChild(make("span", { class: "value" }, document.createTextNode(""))).firstChild;
        const values = batch ? [] : cells.slice(1, 4).map(valueIn);
        cells[0].textContent = batch ? picture.axes[pane.axis].unit : pane.bars ? "state" : it.unit;
        if (batch) it.told.forEach((value, place) => { cells[1 + place].textContent = number(value); });
        const row = make("tr", {}, make("td", {}, make("label", { class: "pick" }, box, Panel.swatch(it, pane)), only), ...cells);
        row.onpointerenter = () => this.light(it);
        row.onpointerleave = () => this.light(null);
        this.rows.push({ it, pane, cells, values, box });
        body.push(row);
      }
    }
    const head = make("tr", {}, ...heads.map(text => make("th", { textContent: text, scope: "col" })));
    this.table.replaceChildren(make("thead", {}, head), make("tbody", {}, ...body));
    this.tellReference();
    this.tellExtremes();
  }

  // The line of a curve as a border, which is printed too.
  static swatch(it, pane) {
    const kind = pane.bars ? "bar" : ["", "dashed", "dotted", "double"][Plot.DASHES.indexOf(Plot.dashOf(it))];
    const made = make("span", { class: `color ${kind}` });
    made.style.borderTopColor = `var(--c${it.color % Plot.COLORS})`;
    return made;
  }

  light(it) {
    this.plot.lit = it;
    this.plot.redraw();
  }

  // A column that has nothing to say takes no room.
  tellReference() {
    this.table.classList.toggle("no-reference", !Panel.items(this.picture).some(it => it.behind?.length));
    if (this.plot.cursor) this.plot.tell();
  }

  // The least and the greatest value in the view, with their places.
  tellExtremes() {
    clearTimeout(this.later);
    if (!this.picture || this.picture.kind === "batch") return;
    this.later = setTimeout(() => {
      const heads = this.table.tHead?.rows[0].cells;
      for (const { it, pane, cells } of this.rows) {
        const axis = this.picture?.axes[pane.axis];
        if (!axis || !it.y) continue;
        Panel.extremes(it, axis).forEach((at, place) => cells[4 + place].replaceChildren(...at < 0 ? ["–"] : [
          number(it.y[at]), make("span", { class: "where", textContent: ` at ${number(it.x[at])} ${axis.unit}` }),
        ]));
        heads[5].textContent = this.plot.isWhole(axis) ? "least" : "least in view";
        heads[6].textContent = this.plot.isWhole(axis) ? "greatest" : "greatest in view";
      }
    }, this.rows.length > 20 ? 60 : 0);
  }

  // The places of the least and the greatest value of a curve within the view.
  static extremes({ x, y, loose }, axis) {
    let low = -1, high = -1;
    const [first, last] = loose ? [0, x.length - 1] : Plot.visible(x, axis.from, axis.to);
    for (let at = first; at <= last; at++) {
      if (Number.isNaN(y[at]) || x[at] < axis.from || x[at] > axis.to) continue;
      if (low < 0 || y[at] < y[low]) low = at;
      if (high < 0 || y[at] > y[high]) high = at;
    }
    return [low, high];
  }

  // ---- what stands under the cursor

  tell(at) {
    const { picture } = this, axis = at && picture?.axes[at.axis];
    let text = "";
    if (axis) {
      text = `at ${number(at.x)} ${axis.unit}`;
      if (at.mark !== null) text += `, ${number(at.x - at.mark)} ${axis.unit} from the mark at ${number(at.mark)}`;
      if (at.mark !== null && axis.seconds && at.x !== at.mark) text += ` (${number(1 / Math.abs((at.x - at.mark) * axis.seconds))} Hz)`;
    }
    Panel.put(this.under.firstChild, text);
    if (!picture || picture.kind === "batch") return;
    this.at = axis ? at : null;
    this.table.classList.toggle("no-cursor", !axis);
    this.table.classList.toggle("no-mark", !axis || at.mark === null);
    this.tellValues();
    clearTimeout(this.speaks);
    this.speaks = setTimeout(() => {
      if (document.activeElement !== this.canvas || !axis) return;
      const shown = this.rows.filter(({ it, pane }) => it.shown !== false && pane.axis === at.axis).slice(0, 8);
      this.said.textContent = `${text}: ${shown.map(row => `${row.it.name} ${this.valuesOf(row)[0]} ${row.it.unit ?? ""}`).join(", ")}`;
    }, 700);
  }

  // Of a row: the value at the cursor, the difference from the mark, and from the first reference; "" where there is none.
  valuesOf({ it, pane }) {
    const { at } = this;
    if (!at || pane.axis !== at.axis || it.loose || it.shown === false) return ["", "", ""];
    const value = (xs, ys, x) => { const found = Plot.nearest(xs, x); return found < 0 ? NaN : ys[found]; };
    const here = value(it.x, it.y ?? it.values, at.x), first = it.behind?.[0];
    const apart = at.mark !== null && it.y ? number(here - value(it.x, it.y, at.mark)) : "";
    return [number(here), apart, first ? number(here - value(first.x, first.y, at.x)) : ""];
  }

  // Fills in the values of the rows that are seen.
  tellValues() {
    if (!this.rows.length || this.picture?.kind === "batch") return;
    const LOW = 24, HIGH = 40; // between these a row is high
    const first = Math.max(0, Math.floor(this.top / HIGH) - 1), last = Math.ceil((this.top + this.seen) / LOW) + 1;
    for (const row of this.rows.slice(first, last)) {
      this.valuesOf(row).forEach((text, place) => Panel.put(row.values[place], text));
    }
  }

  // Puts a text into a node of text, where it is another one.
  static put(node, text) {
    if (node.data !== text) node.data = text;
  }

  // ---- files

  async savePicture() {
    const { clientWidth, clientHeight } = this.canvas;
    const blob = await this.plot.picture_bytes(Math.max(720, clientWidth), Math.max(Plot.height(this.picture), clientHeight));
    this.save(`${this.name()}.png`, new Uint8Array(await blob.arrayBuffer()), "image/png");
  }

  // The channels that are drawn over the first axis, in the part that is seen, a line a point.
  saveValues() {
    const axis = this.picture.axes[0], own = this.rows.filter(({ it, pane }) => it.shown !== false && pane.axis === 0);
    this.save(`${this.name()}.csv`, new TextEncoder().encode(Panel.csv(axis, own.map(({ it }) => it))), "text/csv");
  }

  static csv(axis, items) {
    const quoted = text => /[",\n]/.test(text) ? `"${text.replace(/"/g, '""')}"` : text;
    const named = it => it.unit ? `${it.name} in ${it.unit}` : it.name;
    const xs = items[0]?.x ?? [], lines = [[axis.unit, ...items.map(named)].map(quoted).join(",")];
    for (let at = 0; at < xs.length; at++) {
      if (xs[at] < axis.from || xs[at] > axis.to) continue;
      const values = items.map(it => {
        const value = (it.y ?? it.values)[it.x === xs ? at : Plot.nearest(it.x, xs[at])];
        return Number.isNaN(value) ? "" : String(value);
      });
      lines.push([Number(xs[at].toPrecision(12)), ...values].join(","));
    }
    return lines.join("\n") + "\n";
  }
}
