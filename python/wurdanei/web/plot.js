// ---- plot: panes of curves over a common axis, on a canvas

// A picture is { title, kind, axes: [{ label, unit, log, view }], panes: [pane] }. A pane has { label, unit, axis, height, log } and one of
//   curves: [{ name, x, y, color, dash, steps, loose, shown, behind }]  lines through points, x rising unless `loose`; `behind` are
//                                                                 curves { x, y } that stand in grey behind it
//   bars:   [{ name, x, values, color, shown }]                  a state over the axis: a bar where it isn't 0
// and may have marks: [{ x, y, text }] (points), limits: [{ x, text }] (upright lines) and bands: [{ x, low, high, color }].
class Plot {
  static COLORS = 8;
  static DASHES = [[], [7, 3], [2, 3], [8, 3, 2, 3]];
  static BEHIND = [[], [6, 3], [2, 2], [9, 3, 2, 3]];
  static LEGEND = 17;
  static LINES = 2; // of a legend at most: the table has all names
  static GAP = 10;

  // `told` is called with what stands under the cursor: { x, axis, at(curve), mark } or null; `viewed` when the view is another.
  constructor(canvas, told, viewed = () => {}) {
    this.canvas = canvas;
    // the cursor has a layer of its own, so that curves aren't drawn anew as it moves
    this.over = canvas.parentNode.appendChild(document.createElement("canvas"));
    this.over.className = "over";
    this.over.setAttribute("aria-hidden", "true");
    this.told = told;
    this.viewed = viewed;
    this.picture = null;
    this.cursor = null; // { axis, x }
    this.mark = null; // as the cursor, where it was put
    this.drag = null; // { axis, from, to, pans }
    this.lit = null; // a curve that is drawn over the others
    this.touches = new Map();
    this.wanted = "";
    this.tells = null;
    this.columns = new WeakMap(); // of values: their least and greatest in each column of pixels, for a view
    this.stands = false; // whether the canvas has what is to be seen, but for its size
    new ResizeObserver(() => { if (!this.stands || !this.fits(canvas)) this.redraw(); }).observe(canvas);
    this.listen();
  }

  // Draws another picture, from end to end of each axis; where `keeps`, in the view and with the mark of the one before.
  show(picture, keeps = false) {
    const before = keeps && this.picture?.kind === picture?.kind ? this.picture : null, mark = before && this.mark;
    this.picture = picture;
    this.cursor = this.mark = this.drag = this.lit = null;
    picture?.axes.forEach((axis, place) => {
      this.measure(picture, axis, place);
      const old = before?.axes[place];
      if (old && old.unit === axis.unit && !this.isWhole(old)) {
        axis.from = Math.max(axis.least, old.from);
        axis.to = Math.min(axis.most, old.to);
      }
      if (!old || this.isWhole(old) || old.unit !== axis.unit || !(axis.from < axis.to)) {
        [axis.from, axis.to] = axis.view ?? [axis.least, axis.most];
      } else if (mark?.axis === place && mark.x <= axis.most) this.mark = mark;
    });
    this.tell();
    this.redraw();
  }

  // The ends of an axis: those of all that stands over it.
  measure(picture, axis, place) {
    axis.least = Infinity;
    axis.most = -Infinity;
    const take = x => {
      if (x < axis.least) axis.least = x;
      if (x > axis.most) axis.most = x;
    };
    for (const pane of picture.panes) {
      if (pane.axis !== place) continue;
      for (const { x, loose } of pane.curves ?? pane.bars) {
        if (loose) x.forEach(take);
        else if (x.length) [axis.log ? x.find(it => it > 0) : x[0], x[x.length - 1]].forEach(take);
      }
      for (const { x } of pane.limits ?? []) axis.most = Math.max(axis.most, x);
    }
    if (axis.least < axis.most) return;
    const middle = Number.isFinite(axis.least) ? axis.least : 0, half = Math.abs(middle) / 20 || 1;
    [axis.least, axis.most] = [middle - half, middle + half];
  }

  // ---- the view

  // Where a value stands on an axis, as a share of what is seen; and the value at a share.
  static share({ from, to, log }, x) {
    return log ? Math.log(x / from) / Math.log(to / from) : (x - from) / (to - from);
  }

  static at({ from, to, log }, share) {
    return log ? from * (to / from) ** share : from + share * (to - from);
  }

  isWhole(axis) {
    return axis.from <= axis.least && axis.to >= axis.most;
  }

  setView(axis, from, to) {
    if (axis.log) {
      [axis.from, axis.to] = [Math.max(from, axis.least), Math.min(to, axis.most)];
    } else {
      const whole = axis.most - axis.least;
      const span = Math.min(whole, Math.max(to - from, whole * 1e-9));
      from = Math.min(Math.max(from, axis.least), axis.most - span);
      [axis.from, axis.to] = [from, from + span];
    }
    this.viewed();
    this.redraw();
  }

  // Makes the view `factor` times as wide; what stands at x stays there.
  zoom(axis, x, factor) {
    const share = Plot.share(axis, x);
    this.setView(axis, Plot.at(axis, share * (1 - factor)), Plot.at(axis, share + (1 - share) * factor));
  }

  pan(axis, share) {
    if (this.isWhole(axis)) return;
    this.setView(axis, Plot.at(axis, share), Plot.at(axis, 1 + share));
  }

  // Makes the values of a pane that are seen `factor` times as many; what stands at `value` stays there.
  zoomValues(area, value, factor) {
    if (area.pane.bars || area.pane.log) return;
    area.pane.zoomed = [value - (value - area.low) * factor, value + (area.high - value) * factor];
    this.redraw();
  }

  reset() {
    if (!this.picture) return;
    for (const axis of this.picture.axes) [axis.from, axis.to] = [axis.least, axis.most];
    for (const pane of this.picture.panes) delete pane.zoomed;
    this.mark = null;
    this.viewed();
    this.tell();
    this.redraw();
  }

  // Draws in the next frame: all, or the cursor alone.
  redraw(what = "all") {
    const waits = this.wanted;
    if (what === "all") this.stands = false;
    if (waits !== "all") this.wanted = what;
    if (waits) return;
    requestAnimationFrame(() => {
      const all = this.wanted === "all";
      this.wanted = "";
      if (all) this.draw();
      this.drawOver();
    });
  }

  // ---- what stands under the cursor

  // The place of the point of a curve nearest to x.
  static nearest(xs, x) {
    let low = 0, high = xs.length - 1;
    if (high < 0) return -1;
    while (high - low > 1) {
      const middle = (low + high) >> 1;
      if (xs[middle] <= x) low = middle;
      else high = middle;
    }
    return Math.abs(xs[low] - x) <= Math.abs(xs[high] - x) ? low : high;
  }

  // Says what stands under the cursor; twelve times a second are enough to read it.
  tell() {
    this.tells ??= setTimeout(() => {
      this.tells = null;
      this.tellNow();
    }, 80);
  }

  tellNow() {
    this.told(this.picture && this.cursor
      ? { axis: this.cursor.axis, x: this.cursor.x, mark: this.mark && this.mark.axis === this.cursor.axis ? this.mark.x : null }
      : null);
  }

  // Puts the cursor on the nearest point of the first curve that is shown.
  setCursor(place, x) {
    const pane = this.picture.panes.find(it => it.axis === place);
    const xs = (pane.curves ?? pane.bars)[0]?.x;
    if (xs?.length) this.cursor = { axis: place, x: xs[Plot.nearest(xs, x)] };
    this.tell();
    this.redraw("cursor");
  }

  // ---- pointer, wheel and keys

  listen() {
    const canvas = this.canvas;
    canvas.addEventListener("pointerdown", event => this.press(event));
    canvas.addEventListener("pointermove", event => this.move(event));
    canvas.addEventListener("pointerup", event => this.release(event));
    canvas.addEventListener("pointercancel", event => this.release(event));
    canvas.addEventListener("pointerleave", () => {
      if (this.drag || this.touches.size || document.activeElement === canvas) return;
      this.cursor = null;
      this.tell();
      this.redraw("cursor");
    });
    canvas.addEventListener("dblclick", () => this.reset());
    canvas.addEventListener("wheel", event => {
      const at = this.under(event);
      if (!at) return;
      const factor = Math.exp(Math.sign(event.deltaY) * Math.min(0.25, Math.abs(event.deltaY) / 400));
      if (at.left < at.area.left) {
        event.preventDefault();
        this.zoomValues(at.area, at.value, factor);
        return;
      }
      if (factor > 1 && this.isWhole(at.axis)) return; // the page goes on
      event.preventDefault();
      this.zoom(at.axis, at.x, factor);
    }, { passive: false });
    canvas.addEventListener("keydown", event => {
      if (!event.ctrlKey && !event.metaKey && !event.altKey && this.press_key(event)) event.preventDefault();
    });
  }

  // The axis and its value under the pointer.
  under(event) {
    if (!this.areas?.length) return null;
    const box = this.canvas.getBoundingClientRect();
    const left = event.clientX - box.left, top = event.clientY - box.top;
    const area = this.areas.find(it => top < it.bottom + Plot.GAP + Plot.LEGEND) ?? this.areas[this.areas.length - 1];
    const axis = this.picture.axes[area.axis];
    const share = Math.min(1, Math.max(0, (left - area.left) / area.width));
    const value = area.high - (top - area.top) / (area.bottom - area.top) * (area.high - area.low);
    return { place: area.axis, axis, x: Plot.at(axis, share), left, area, value };
  }

  press(event) {
    const at = this.under(event);
    if (!at || event.button > 1) return;
    this.canvas.setPointerCapture(event.pointerId);
    if (event.pointerType === "touch") {
      this.touches.set(event.pointerId, at);
      this.setCursor(at.place, at.x);
      return;
    }
    if (event.button === 1) event.preventDefault();
    this.drag = { at, from: at.x, to: at.x, pans: event.shiftKey || event.button === 1, left: at.left, first: [at.axis.from, at.axis.to] };
  }

  move(event) {
    const at = this.under(event);
    if (!at) return;
    if (event.pointerType === "touch") return this.moveTouch(event, at);
    if (this.drag?.pans) {
      const { axis, area } = this.drag.at, [from, to] = this.drag.first;
      const by = (this.drag.left - at.left) / area.width, was = { ...axis, from, to };
      if (!this.isWhole(was)) this.setView(axis, Plot.at(was, by), Plot.at(was, 1 + by));
    } else if (this.drag && at.place === this.drag.at.place) {
      this.drag.to = at.x;
      this.drag.moved ||= Math.abs(at.left - this.drag.left) > 4;
    }
    this.setCursor(at.place, at.x);
  }

  // One finger moves the view, or the cursor where all is seen; two make it wider or narrower.
  moveTouch(event, at) {
    const before = this.touches.get(event.pointerId);
    if (!before) return;
    const others = [...this.touches].filter(([id]) => id !== event.pointerId).map(([, it]) => it);
    const { axis } = at;
    if (others.length) {
      const other = others[0];
      const was = Math.max(20, Math.abs(before.left - other.left)), is = Math.max(20, Math.abs(at.left - other.left));
      this.zoom(axis, (other.x + at.x) / 2, was / is);
    } else if (!this.isWhole(axis)) {
      this.pan(axis, (before.left - at.left) / at.area.width);
    }
    this.touches.set(event.pointerId, at);
    this.setCursor(at.place, at.x);
  }

  release(event) {
    this.touches.delete(event.pointerId);
    const drag = this.drag;
    this.drag = null;
    if (!drag) return;
    if (drag.moved && !drag.pans) this.setView(drag.at.axis, Math.min(drag.from, drag.to), Math.max(drag.from, drag.to));
    else if (!drag.moved && !drag.pans && event.type === "pointerup" && this.cursor) this.toggleMark();
    this.redraw("cursor");
  }

  toggleMark() {
    const same = this.mark && this.mark.axis === this.cursor.axis && this.mark.x === this.cursor.x;
    this.mark = same ? null : { ...this.cursor };
    this.tell();
    this.redraw("cursor");
  }

  press_key(event) {
    if (!this.picture) return false;
    const place = this.cursor?.axis ?? 0;
    const axis = this.picture.axes[place];
    const x = this.cursor && this.cursor.x >= axis.from && this.cursor.x <= axis.to ? this.cursor.x : (axis.from + axis.to) / 2;
    switch (event.key) {
      case "ArrowLeft": case "ArrowRight": {
        const pane = this.picture.panes.find(it => it.axis === place);
        const xs = (pane.curves ?? pane.bars)[0]?.x ?? [];
        const by = event.key === "ArrowLeft" ? -1 : 1;
        const next = event.shiftKey ? Plot.at(axis, Plot.share(axis, x) + by / 20)
          : xs[Math.min(xs.length - 1, Math.max(0, Plot.nearest(xs, x) + by))];
        if (next < axis.from || next > axis.to) this.pan(axis, by / 4);
        this.setCursor(place, next);
        return true;
      }
      case "+": case "=": this.zoom(axis, x, 0.5); return true;
      case "-": this.zoom(axis, x, 2); return true;
      case "PageUp": this.pan(axis, -0.5); return true;
      case "PageDown": this.pan(axis, 0.5); return true;
      case "Home":
        this.pan(axis, Plot.share(axis, axis.least));
        this.setCursor(place, axis.least);
        return true;
      case "End":
        this.pan(axis, Plot.share(axis, axis.most) - 1);
        this.setCursor(place, axis.most);
        return true;
      case "*": case "/":
        for (const area of this.areas.filter(it => it.axis === place)) {
          this.zoomValues(area, (area.low + area.high) / 2, event.key === "*" ? 0.5 : 2);
        }
        return true;
      case "0": this.reset(); return true;
      case "m": if (this.cursor) this.toggleMark(); return true;
      default: return false;
    }
  }

  // ---- drawing

  static theme(element) {
    const style = getComputedStyle(element), value = name => style.getPropertyValue(name).trim();
    return {
      ink: value("--ink"), faint: value("--faint"), grid: value("--grid"), paper: value("--paper"), mark: value("--mark"),
      band: value("--band"), colors: Array.from({ length: Plot.COLORS }, (_, place) => value("--c" + place)),
    };
  }

  // The context of a canvas in the points of the page, and its size; null where it isn't seen.
  sized(canvas) {
    const { clientWidth, clientHeight } = this.canvas, ratio = window.devicePixelRatio || 1;
    if (!clientWidth || !clientHeight) return null;
    if (!this.fits(canvas)) [canvas.width, canvas.height] = this.pixels();
    const to = canvas.getContext("2d");
    to.setTransform(ratio, 0, 0, ratio, 0, 0);
    return { to, width: clientWidth, height: clientHeight };
  }

  // How many pixels a canvas has for the size that it is seen in, and whether it has them.
  pixels() {
    const ratio = window.devicePixelRatio || 1;
    return [Math.round(this.canvas.clientWidth * ratio), Math.round(this.canvas.clientHeight * ratio)];
  }

  fits(canvas) {
    const [width, height] = this.pixels();
    return canvas.width === width && canvas.height === height;
  }

  draw() {
    const own = this.sized(this.canvas);
    if (!own) return;
    this.stands = true;
    this.drawnTheme = Plot.theme(this.canvas);
    this.areas = this.paint(own.to, own.width, own.height, this.drawnTheme);
  }

  // The cursor, the mark and what is dragged over.
  drawOver() {
    const own = this.sized(this.over);
    if (!own) return;
    own.to.clearRect(0, 0, own.width, own.height);
    if (!this.picture) return;
    for (const area of this.areas ?? []) this.paintCursor(own.to, area, this.picture.axes[area.axis], this.drawnTheme);
  }

  // A picture as a PNG, on white paper whatever the page has.
  async picture_bytes(width, height) {
    const canvas = document.createElement("canvas"), ratio = 2, top = this.picture.title ? 26 : 0;
    canvas.width = width * ratio;
    canvas.height = (height + top) * ratio;
    const to = canvas.getContext("2d");
    const light = document.createElement("div");
    light.className = "light";
    document.body.append(light);
    const theme = Plot.theme(light);
    light.remove();
    to.scale(ratio, ratio);
    to.fillStyle = theme.paper;
    to.fillRect(0, 0, width, height + top);
    to.fillStyle = theme.ink;
    to.font = "600 14px system-ui, sans-serif";
    to.fillText(this.picture.title, 12, 19);
    to.translate(0, top);
    this.paint(to, width, height, theme);
    return new Promise(done => canvas.toBlob(done, "image/png"));
  }

  // The least height of a picture.
  static height(picture) {
    const own = picture.panes.filter((pane, place) => picture.panes[place + 1]?.axis !== pane.axis).length;
    const shown = bars => bars.filter(it => it.shown !== false).length;
    const high = pane => pane.bars ? 10 + 20 * shown(pane.bars) : Plot.LEGEND + 0.5 * (pane.height ?? 130);
    return picture.panes.filter(Plot.isShown).reduce((sum, pane) => sum + high(pane) + Plot.GAP, 4 + 30 * own);
  }

  // A pane with something to draw.
  static isShown(pane) {
    return (pane.curves ?? pane.bars).some(it => it.shown !== false) || Boolean(pane.bands);
  }

  // Draws all, and gives the areas of the panes.
  paint(to, width, height, theme) {
    to.fillStyle = theme.paper;
    to.fillRect(0, 0, width, height);
    const { picture } = this;
    if (!picture) return [];
    to.font = "12px system-ui, sans-serif";
    to.textBaseline = "middle";
    const areas = this.layout(to, width, height);
    for (const area of areas) {
      const axis = picture.axes[area.axis];
      this.paintGrid(to, area, axis, theme);
      to.save();
      to.beginPath();
      to.rect(area.left, area.top - 1, area.width, area.bottom - area.top + 2);
      to.clip();
      if (area.pane.bars) this.paintBars(to, area, axis, theme);
      else this.paintCurves(to, area, axis, theme);
      to.restore();
      this.paintMarks(to, area, axis, theme);
      this.paintLegend(to, area, theme);
    }
    return areas;
  }

  // Where each pane stands, and the range of its values in the view.
  layout(to, width, height) {
    const { axes } = this.picture, panes = this.picture.panes.filter(Plot.isShown);
    const own = panes.map((pane, place) => place === panes.length - 1 || panes[place + 1].axis !== pane.axis);
    const areas = panes.map((pane, place) => ({ pane, axis: pane.axis, own: own[place], legend: this.legend(to, pane, width),
      bars: pane.bars?.filter(it => it.shown !== false) }));
    const fixed = areas.reduce((sum, it) => sum + it.legend.height + Plot.GAP + (it.own ? 30 : 0)
      + (it.bars ? 20 * it.bars.length + 6 : 0), 4);
    const shares = panes.reduce((sum, pane) => sum + (pane.bars ? 0 : pane.height ?? 130), 0) || 1;
    let left = 0, top = 2;
    for (const area of areas) {
      area.top = top + area.legend.height;
      area.bottom = area.top + (area.bars ? 20 * area.bars.length + 6
        : Math.max(40, (height - fixed) * (area.pane.height ?? 130) / shares));
      top = area.bottom + Plot.GAP + (area.own ? 30 : 0);
      if (area.bars) {
        left = Math.max(left, ...area.bars.map(it => Math.min(110, to.measureText(it.name).width)));
      } else {
        [area.low, area.high] = this.range(area, axes[area.axis], width);
        const count = Math.max(3, (area.bottom - area.top) / 30);
        area.ticks = area.pane.log ? Plot.logTicks(area.low, area.high, count) : Plot.ticks(area.low, area.high, count);
        left = Math.max(left, ...area.ticks.map(it => to.measureText(it.text).width));
      }
    }
    for (const area of areas) [area.left, area.width] = [left + 12, Math.max(20, width - left - 24)];
    return areas;
  }

  // The names over a pane, in as many lines as they need.
  legend(to, pane, width) {
    const entries = [], label = pane.label ? pane.label + (pane.unit ? ", " : "") + (pane.unit ?? "") : pane.unit ?? "";
    let left = 12 + to.measureText(label).width + 14, line = 0, more = 0;
    const named = (pane.curves ?? []).filter(it => it.shown !== false && !it.nameless);
    for (const it of named) {
      const wide = to.measureText(it.name).width + 34, last = line === Plot.LINES - 1;
      if (left + wide > width - (last ? 80 : 8) && left > 60) {
        if (last) {
          more = named.length - entries.length;
          break;
        }
        [left, line] = [12, line + 1];
      }
      entries.push({ it, left, line });
      left += wide;
    }
    return { label, entries, more, left, height: pane.bars && !label ? 2 : (line + 1) * Plot.LEGEND + 2 };
  }

  // The least and the greatest value of the curves in the view, with a margin.
  range(area, axis, width) {
    const { pane } = area;
    if (pane.zoomed) return pane.zoomed;
    let low = Infinity, high = -Infinity;
    const take = value => {
      if (pane.log && !(value > 0)) return;
      if (value < low) low = value;
      if (value > high) high = value;
    };
    for (const it of pane.curves) {
      if (it.shown === false) continue;
      for (const one of [it, ...it.behind ?? []]) {
        if (one.loose) one.y.forEach(take);
        else this.ends(one, axis, width).forEach(take);
      }
    }
    for (const it of pane.bands ?? []) for (const y of [it.low, it.high]) this.ends({ x: it.x, y }, axis, width).forEach(take);
    if (pane.from !== undefined) [low, high] = [pane.from, pane.to];
    if (!(low <= high)) return pane.log ? [1, 10] : [-1, 1];
    if (pane.log) return [low / 1.15, high * 1.15];
    const margin = (high - low) * 0.06 || Math.abs(high) * 0.1 || 1;
    return [low - margin, high + margin];
  }

  // The least and the greatest value of a curve in the view; of many points those of its columns.
  ends({ x, y }, axis, width) {
    let low = NaN, high = NaN;
    const [first, last] = Plot.visible(x, axis.from, axis.to);
    const thin = last - first >= 4 * width && this.thinned(x, y, axis, width);
    const take = (least, most) => {
      if (!(least >= low)) low = Number.isNaN(least) ? low : least;
      if (!(most <= high)) high = Number.isNaN(most) ? high : most;
    };
    if (thin) for (let at = 0; at < thin.count; at++) take(thin.low[at], thin.high[at]);
    else for (let at = first; at <= last; at++) take(y[at], y[at]);
    return [low, high];
  }

  // Of each column of pixels of a view that has values: the first, the least, the greatest and the last of them. It is kept for the
  // next drawing of the same view.
  thinned(x, y, axis, width) {
    const kept = this.columns.get(y), key = `${axis.from} ${axis.to} ${axis.log} ${width}`;
    if (kept?.key === key) return kept;
    const [first, last] = Plot.visible(x, axis.from, axis.to), most = Math.ceil(width) + 3;
    const made = { key, count: 0, place: new Float64Array(most), begin: new Float64Array(most), low: new Float64Array(most),
      high: new Float64Array(most), end: new Float64Array(most) };
    const scale = width / (axis.to - axis.from), { from, log } = axis;
    let column = -2, at = -1;
    for (let sample = first; sample <= last; sample++) {
      const value = y[sample];
      if (value !== value) continue;
      const here = Math.max(-1, Math.min(most - 3, Math.floor(log ? width * Plot.share(axis, x[sample]) : (x[sample] - from) * scale)));
      if (here !== column) {
        column = here;
        at++;
        made.place[at] = here + 0.5;
        made.begin[at] = made.low[at] = made.high[at] = value;
      } else if (value < made.low[at]) made.low[at] = value;
      else if (value > made.high[at]) made.high[at] = value;
      made.end[at] = value;
    }
    made.count = at + 1;
    this.columns.set(y, made);
    return made;
  }

  // The first and the last point in the view, and one more at each side.
  static visible(xs, from, to) {
    const search = x => {
      let low = 0, high = xs.length;
      while (low < high) {
        const middle = (low + high) >> 1;
        if (xs[middle] < x) low = middle + 1;
        else high = middle;
      }
      return low;
    };
    return [Math.max(0, search(from) - 1), Math.min(xs.length - 1, search(to))];
  }

  // Round values from low to high, about `count` of them, with their texts.
  static ticks(low, high, count) {
    const rough = (high - low) / Math.max(1, count), power = 10 ** Math.floor(Math.log10(rough));
    const step = [1, 2, 5, 10].find(it => it * power >= rough * 0.999) * power;
    const found = [];
    for (let n = Math.ceil(low / step - 1e-9); n * step <= high + step * 1e-9; n++) {
      found.push({ value: n * step, text: Plot.text(n * step, step) });
    }
    return found;
  }

  // Values of 1, 2 and 5 times a power of ten from low to high; where these are more than `count`, the powers alone.
  static logTicks(low, high, count) {
    const made = steps => {
      const found = [];
      for (let power = Math.floor(Math.log10(low)); power <= Math.ceil(Math.log10(high)); power++) {
        for (const step of steps) {
          const value = step * 10 ** power;
          if (value >= low * 0.999 && value <= high * 1.001) found.push({ value, text: Plot.text(value, 10 ** Math.min(power, 0)) });
        }
      }
      return found;
    };
    const fine = made([1, 2, 5]), rough = made([1]);
    if (fine.length <= count || rough.length < 2) return fine;
    return rough.filter((_, at) => at % Math.ceil(rough.length / Math.max(2, count)) === 0);
  }

  // A value, exact to the step.
  static text(value, step) {
    if (Math.abs(value) < step / 2) return "0";
    const decimals = Math.max(0, -Math.floor(Math.log10(step) + 1e-9));
    if (decimals > 6 || Math.abs(value) >= 1e7) {
      const digits = Math.max(0, Math.floor(Math.log10(Math.abs(value)) + 1e-9) - Math.floor(Math.log10(step) + 1e-9));
      return value.toExponential(Math.min(15, digits)).replace("e+", "e");
    }
    return value.toFixed(decimals).replace(/\B(?=(\d{3})+(?!\d))(?<!\.\d*)/g, "\u2009");
  }

  paintGrid(to, area, axis, theme) {
    const across = x => area.left + Plot.share(axis, x) * area.width;
    to.lineWidth = 1;
    to.strokeStyle = theme.grid;
    to.fillStyle = theme.faint;
    to.beginPath();
    const ticks = (axis.log ? Plot.logTicks : Plot.ticks)(axis.from, axis.to, Math.max(2, area.width / 62));
    for (const { value } of ticks) {
      const x = Math.round(across(value)) + 0.5;
      to.moveTo(x, area.top);
      to.lineTo(x, area.bottom);
    }
    to.textAlign = "right";
    for (const { value, text } of area.ticks ?? []) {
      const y = Math.round(this.up(area, value)) + 0.5;
      to.moveTo(area.left, y);
      to.lineTo(area.left + area.width, y);
      to.fillText(text, area.left - 6, y);
    }
    to.stroke();
    to.strokeRect(area.left + 0.5, Math.round(area.top) + 0.5, area.width - 1, Math.round(area.bottom - area.top));
    if (!area.own) return;
    to.textAlign = "center";
    let free = -Infinity;
    for (const { value, text } of ticks) {
      const half = to.measureText(text).width / 2, most = area.left + area.width - half + 4;
      const x = Math.min(Math.max(across(value), area.left + half - 4), most);
      if (x - half < free) continue;
      to.fillText(text, x, area.bottom + 11);
      free = x + half + 8;
    }
    to.fillText(axis.label, area.left + area.width / 2, area.bottom + 27);
  }

  up(area, value) {
    const high = area.bottom - area.top;
    if (area.pane.log) return area.bottom - Math.log(Math.max(value, 1e-300) / area.low) / Math.log(area.high / area.low) * high;
    return area.bottom - (value - area.low) / (area.high - area.low) * (area.bottom - area.top);
  }

  paintCurves(to, area, axis, theme) {
    to.lineJoin = "round";
    const shown = area.pane.curves.filter(it => it.shown !== false), lit = shown.includes(this.lit) ? this.lit : null;
    for (const it of area.pane.bands ?? []) this.paintBand(to, it, area, axis, theme);
    for (const it of shown) {
      (it.behind ?? []).forEach(({ x, y, steps }, place) => {
        to.strokeStyle = theme.faint;
        to.globalAlpha = 0.65;
        to.lineWidth = 1;
        to.setLineDash(Plot.BEHIND[place % Plot.BEHIND.length]);
        this.trace(to, { x, y, steps }, area, axis);
        to.globalAlpha = 1;
      });
    }
    for (const it of lit ? [...shown.filter(it => it !== lit), lit] : shown) {
      to.strokeStyle = theme.colors[it.color % theme.colors.length];
      to.globalAlpha = lit && it !== lit ? 0.35 : 1;
      to.lineWidth = it === lit ? 2.2 : it.dash ? 1.5 : 1.25;
      to.setLineDash(Plot.dashOf(it));
      this.trace(to, it, area, axis);
    }
    to.globalAlpha = 1;
    to.setLineDash([]);
  }

  // The dashes of a curve: by how many others it lies on, and by how often the colours began anew.
  static dashOf({ dash = 0, color }) {
    return Plot.DASHES[(dash + Math.floor(color / Plot.COLORS)) % Plot.DASHES.length];
  }

  // Goes along a curve. Where a column of pixels has many points, it goes through the first, the least, the greatest and the last
  // of them, so that no peak is lost.
  trace(to, { x: xs, y: ys, steps, loose }, area, axis) {
    const [first, last] = loose ? [0, xs.length - 1] : Plot.visible(xs, axis.from, axis.to);
    const scale = area.width / (axis.to - axis.from);
    const across = axis.log ? x => area.left + Plot.share(axis, x) * area.width : x => area.left + (x - axis.from) * scale;
    to.beginPath();
    if (!loose && last - first >= 4 * area.width) {
      const thin = this.thinned(xs, ys, axis, area.width);
      for (let at = 0; at < thin.count; at++) {
        const x = area.left + thin.place[at];
        if (at) to.lineTo(x, this.up(area, thin.begin[at]));
        else to.moveTo(x, this.up(area, thin.begin[at]));
        to.lineTo(x, this.up(area, thin.low[at]));
        to.lineTo(x, this.up(area, thin.high[at]));
        to.lineTo(x, this.up(area, thin.end[at]));
      }
    } else {
      let open = false, before = NaN;
      for (let at = first; at <= last; at++) {
        if (Number.isNaN(ys[at])) {
          open = false;
          continue;
        }
        const x = across(xs[at]), y = this.up(area, ys[at]);
        if (!open) to.moveTo(x, y);
        else {
          if (steps) to.lineTo(x, before);
          to.lineTo(x, y);
        }
        open = true;
        before = y;
      }
    }
    to.stroke();
  }

  // Fills what lies between two curves; where a column of pixels has many points, between the least and the greatest of them.
  paintBand(to, { x, low, high, color }, area, axis, theme) {
    const [first, last] = Plot.visible(x, axis.from, axis.to);
    let lower = [], upper = [];
    if (last - first >= 4 * area.width) {
      const below = this.thinned(x, low, axis, area.width), above = this.thinned(x, high, axis, area.width);
      for (let at = 0; at < below.count; at++) lower.push([area.left + below.place[at], below.low[at]]);
      for (let at = 0; at < above.count; at++) upper.push([area.left + above.place[at], above.high[at]]);
    } else {
      for (let at = first; at <= last; at++) {
        const place = area.left + Plot.share(axis, x[at]) * area.width;
        lower.push([place, low[at]]);
        upper.push([place, high[at]]);
      }
    }
    [lower, upper] = [lower, upper].map(it => it.filter(([, value]) => Number.isFinite(value)));
    to.beginPath();
    [...upper, ...lower.reverse()].forEach(([place, value], at) => {
      if (at) to.lineTo(place, this.up(area, value));
      else to.moveTo(place, this.up(area, value));
    });
    to.fillStyle = theme.colors[color % theme.colors.length];
    to.globalAlpha = 0.22;
    to.fill();
    to.globalAlpha = 1;
  }

  paintBars(to, area, axis, theme) {
    const across = x => area.left + Plot.share(axis, x) * area.width;
    area.bars.forEach(({ x, values, color }, row) => {
      to.fillStyle = theme.colors[color % theme.colors.length];
      const top = area.top + 3 + 20 * row + 4;
      const [first, last] = Plot.visible(x, axis.from, axis.to);
      let since = null;
      for (let at = first; at <= last + 1; at++) {
        const on = at <= last && values[at] !== 0;
        if (on && since === null) since = x[at];
        else if (!on && since !== null) {
          const until = x[Math.min(at, x.length - 1)];
          to.fillRect(across(since), top, Math.max(1, across(until) - across(since)), 12);
          since = null;
        }
      }
    });
  }

  paintCursor(to, area, axis, theme) {
    const across = x => area.left + Math.min(1, Math.max(0, Plot.share(axis, x))) * area.width;
    if (this.drag?.moved && !this.drag.pans && this.drag.at.place === area.axis) {
      to.fillStyle = theme.band;
      const left = across(Math.min(this.drag.from, this.drag.to));
      to.fillRect(left, area.top, across(Math.max(this.drag.from, this.drag.to)) - left, area.bottom - area.top);
    }
    const line = (x, color, dash) => {
      to.strokeStyle = color;
      to.lineWidth = 1;
      to.setLineDash(dash);
      to.beginPath();
      to.moveTo(Math.round(across(x)) + 0.5, area.top);
      to.lineTo(Math.round(across(x)) + 0.5, area.bottom);
      to.stroke();
      to.setLineDash([]);
    };
    const seen = x => x >= axis.from && x <= axis.to;
    if (this.mark?.axis === area.axis && seen(this.mark.x)) line(this.mark.x, theme.mark, [4, 3]);
    if (this.cursor?.axis !== area.axis || !seen(this.cursor.x)) return;
    line(this.cursor.x, theme.ink, []);
    let xs = null, at = -1;
    for (const { x, y, color, shown, loose } of area.pane.curves ?? []) {
      if (shown === false || loose) continue;
      if (x !== xs) [xs, at] = [x, Plot.nearest(x, this.cursor.x)];
      if (at < 0 || Number.isNaN(y[at]) || y[at] < area.low || y[at] > area.high) continue;
      to.fillStyle = theme.colors[color % theme.colors.length];
      to.beginPath();
      to.arc(across(x[at]), this.up(area, y[at]), 3, 0, 7);
      to.fill();
    }
  }

  paintMarks(to, area, axis, theme) {
    const across = x => area.left + Plot.share(axis, x) * area.width;
    const inside = x => x >= axis.from && x <= axis.to;
    to.fillStyle = to.strokeStyle = theme.mark;
    to.textAlign = "left";
    const taken = []; // by texts, of which none stands over another
    for (const { x, y, text } of area.pane.marks ?? []) {
      if (!inside(x)) continue;
      to.beginPath();
      to.arc(across(x), this.up(area, y), 3.5, 0, 7);
      to.fill();
      const wide = to.measureText(text).width, right = across(x) + 7 + wide < area.left + area.width;
      const left = right ? across(x) + 7 : across(x) - 7 - wide, top = Math.max(area.top + 8, this.up(area, y) - 8);
      if (taken.some(it => Math.abs(it.top - top) < 13 && left < it.left + it.wide && it.left < left + wide)) continue;
      taken.push({ left, top, wide });
      to.textAlign = "left";
      to.fillText(text, left, top);
    }
    for (const { x, text } of area.pane.limits ?? []) {
      if (!inside(x)) continue;
      to.setLineDash([5, 4]);
      to.beginPath();
      to.moveTo(across(x), area.top);
      to.lineTo(across(x), area.bottom);
      to.stroke();
      to.setLineDash([]);
      to.textAlign = "right";
      to.fillText(text, across(x) - 6, area.bottom - 10);
    }
  }

  paintLegend(to, area, theme) {
    const top = area.top - area.legend.height;
    to.textAlign = "left";
    to.fillStyle = theme.ink;
    to.fillText(area.legend.label, 12, top + Plot.LEGEND / 2);
    for (const { it, left, line } of area.legend.entries) {
      const y = top + Plot.LEGEND * (line + 0.5);
      to.strokeStyle = theme.colors[it.color % theme.colors.length];
      to.lineWidth = 2;
      to.setLineDash(Plot.dashOf(it));
      to.beginPath();
      to.moveTo(left, y);
      to.lineTo(left + 18, y);
      to.stroke();
      to.setLineDash([]);
      to.fillText(it.name, left + 22, y);
    }
    if (area.legend.more) {
      to.fillStyle = theme.faint;
      to.fillText(`and ${area.legend.more} more`, area.legend.left, top + Plot.LEGEND * (Plot.LINES - 0.5));
    }
    if (!area.bars) return;
    to.textAlign = "right";
    to.fillStyle = theme.faint;
    area.bars.forEach((it, row) => to.fillText(it.name, area.left - 6, area.top + 3 + 20 * row + 10, 110));
  }
}
