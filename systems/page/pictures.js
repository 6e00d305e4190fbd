// ---- pictures: what is drawn of a record, a scan, a batch, a study

const Pictures = (() => {
  const spanOf = times => times.length ? times[times.length - 1] - times[0] : 0;

  // A record { times in s, channels, states }: panes by the rules, its time in the unit of its length.
  function ofRecord(it, title) {
    const [unit, seconds] = Rules.timeUnit(spanOf(it.times)), x = it.times.map(time => time / seconds);
    const panes = Rules.panesOf(it.channels, it.states, x);
    const skews = new Map(it.channels.filter(channel => channel.skew).map(({ name, skew }) => [name, skew / seconds]));
    for (const curve of panes.flatMap(pane => pane.curves ?? [])) {
      if (skews.has(curve.name)) curve.x = x.map(time => time + skews.get(curve.name));
    }
    return { title, kind: "record", axes: [{ label: unit, unit, seconds }], panes };
  }

  // Puts the curves of references { record, offset in s } behind those of the same name.
  function putBehind(picture, references) {
    if (picture?.kind !== "record") return;
    const { seconds } = picture.axes[0];
    for (const it of picture.panes.flatMap(pane => pane.curves ?? [])) {
      it.behind = references.flatMap(({ record, offset = 0 }) => {
        const old = record.channels.find(channel => channel.name === it.name);
        if (!old) return [];
        // the values in the unit of the pane, made once
        const factor = Rules.baseUnit(old.unit)[0] / it.divisor;
        record.shown ??= new Map();
        const key = `${old.name} ${factor} ${seconds} ${offset}`;
        if (!record.shown.has(key)) {
          const late = offset + (old.skew ?? 0);
          record.shown.set(key, { x: record.times.map(time => (time + late) / seconds), y: old.values.map(value => value * factor) });
        }
        return [record.shown.get(key)];
      });
    }
  }

  // One channel over another one, between two times in s.
  function ofPair(it, across, up, from, to) {
    const [first, last] = Plot.visible(it.times, from, to), part = name => it.channels.find(channel => channel.name === name);
    const [one, other] = [part(across), part(up)].map(channel => {
      const [factor, base] = Rules.baseUnit(channel.unit), values = channel.values.subarray(first, last + 1);
      const [divisor, unit] = Rules.shownUnit(base, factor * Rules.greatest(values));
      return { unit, values: values.map(value => value * factor / divisor) };
    });
    const label = `${across}${one.unit && `, ${one.unit}`}`;
    return {
      title: `${up} over ${across}`, kind: "pair", axes: [{ label, unit: one.unit }],
      panes: [{ unit: other.unit, axis: 0, height: 300,
        curves: [{ name: up, unit: other.unit, x: one.values, y: other.values, color: 0, loose: true }] }],
    };
  }

  // The spectrum of a channel between two times in s, its greatest peaks marked; it is seen as far as it has any.
  function ofSpectrum(it, name, from, to) {
    const SEEN = 0.005, TOLD = 5;
    const [first, last] = Plot.visible(it.times, from, to), channel = it.channels.find(channel => channel.name === name);
    const factor = Rules.baseUnit(channel.unit)[0], values = channel.values.subarray(first, last + 1).map(value => value * factor);
    const made = Measures.spectrum(it.times.subarray(first, last + 1), values), most = Rules.greatest(made.crests);
    const [divisor, unit] = Rules.shownUnit(Rules.baseUnit(channel.unit)[1], most);
    const end = made.crests.findLastIndex(crest => crest >= SEEN * most) + 1;
    const how = `window of von Hann: crest values, a line each ${number(made.resolution)} Hz`;
    const text = `spectrum of ${name} over ${number(made.length)} s, ${how}`;
    return {
      title: made.told ? `${text}; ${made.told}` : text, kind: "spectrum",
      axes: [{ label: "Hz", unit: "Hz", view: [0, made.hertz[Math.min(made.hertz.length - 1, Math.ceil(1.2 * end))]] }],
      panes: [{
        unit, axis: 0, height: 300, curves: [{ name, unit, x: made.hertz, y: made.crests.map(crest => crest / divisor), color: 0 }],
        marks: Measures.peaks(made).slice(0, TOLD).map(({ hertz, crest }) => ({ x: hertz, y: crest / divisor,
          text: `${number(hertz)} Hz: ${number(crest / divisor)}` })),
      }],
    };
  }

  // A scan: magnitude and angle over the frequency, the resonances marked; `log` draws frequency and magnitude by their logarithms.
  function ofScan({ points, resonances }, title, log) {
    const all = Float64Array.from(points, it => it.frequency);
    const curve = (name, unit, color, of) => ({ name, unit, color, x: all, y: Float64Array.from(points, it => it.why ? NaN : of(it)) });
    const resonant = points.filter(it => !it.why && resonances.includes(it.frequency));
    const marks = resonant.map(it => ({ x: it.frequency, y: it.magnitude, text: `${number(it.frequency)} Hz` }));
    return {
      title, kind: "scan", axes: [{ label: "Hz", unit: "Hz", log }],
      panes: [
        { unit: "ohm", axis: 0, height: 220, log, curves: [curve("magnitude", "ohm", 0, it => it.magnitude)], marks },
        { unit: "degrees", axis: 0, height: 150, curves: [curve("angle", "degrees", 1, it => it.angle)] },
      ],
    };
  }

  // A batch, with the names and units of its channels: of each the share of rows that stay at or below a peak.
  function ofBatch({ peaks }, channels, title) {
    const count = peaks[0]?.length ?? 0, axes = [], panes = [];
    for (let place = 0; place < count; place++) {
      const { name, unit: own } = channels[place] ?? { name: `channel ${place + 1}`, unit: "" };
      const raw = Float64Array.from(peaks, row => row[place]), [divisor, unit] = Rules.shownUnit(own, Rules.greatest(raw));
      const x = raw.map(value => value / divisor).sort(), limit = Rules.notExceeded(x), most = x[x.length - 1];
      axes.push({ label: `peak of ${name}${unit && `, ${unit}`}`, unit });
      panes.push({
        unit: "% of rows", axis: place, height: 130, from: 0, to: 100,
        curves: [{
          name, unit: "%", x, y: x.map((_, at) => 100 * (at + 1) / x.length), color: place, steps: true,
          told: [x[Math.floor((x.length - 1) / 2)], limit, most, 1 + raw.findIndex(value => value / divisor === most)],
        }],
        limits: [{ x: limit, text: `at most 2 % exceed ${number(limit)}` }],
      });
    }
    return { title, kind: "batch", axes, panes };
  }

  // A run for each value of a field: the greatest magnitude of each channel over the value.
  function ofVaried({ rows, channels }, label, title) {
    const good = rows.filter(it => it.peaks.length && Number.isFinite(Number(it.value))).sort((a, b) => Number(a.value) - Number(b.value));
    const x = Float64Array.from(good, it => Number(it.value));
    const peaks = channels.map((it, place) => ({ ...it, values: Float64Array.from(good, row => row.peaks[place]) }));
    const panes = x.length ? Rules.panesOf(peaks, [], x).filter(pane => pane.curves) : [];
    for (const pane of panes) pane.label = "greatest magnitude";
    return { title, kind: "varied", axes: [{ label, unit: "" }], panes };
  }

  return { ofRecord, putBehind, ofPair, ofSpectrum, ofScan, ofBatch, ofVaried };
})();
