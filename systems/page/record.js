// ---- record: COMTRADE records of 1991, 1999 and 2013 (ASCII, BINARY, BINARY32, FLOAT32; cfg with dat, or one cff), as numbers

// Source: IEEE C37.111 of these years; python/wurdanei reads the same, and both are held to one set of records.
const Records = (() => {
  const FORMS = ["ASCII", "BINARY", "BINARY32", "FLOAT32"], MOST_CHANNELS = 10_000;
  const SECTION = /^-{3}\s*file\s+type\s*:\s*(\w+)(?:\s+(\w+))?\s*(?::\s*(\d{1,15})\s*)?-{3}\s*$/i;

  const text = bytes => new TextDecoder("latin1").decode(bytes);

  // A text of a configuration: UTF-8 (2013), else Windows-1252, as recorders write it.
  function decoded(bytes) {
    try {
      return new TextDecoder("utf-8", { fatal: true }).decode(bytes);
    } catch {
      return text(bytes);
    }
  }

  // ---- the configuration

  // Throws an Error in words.
  function readCfg(bytes) {
    const lines = decoded(bytes).split(/\r?\n/).map(line => line.split(",").map(field => field.trim())), told = [];
    let at = 0;
    const fault = cause => new Error(`line ${at} of the cfg: ${cause}`);
    const next = what => {
      const isOver = at >= lines.length || at === lines.length - 1 && lines[at].join("").replace("\x1a", "") === "";
      if (isOver) throw new Error(`line ${at + 1} of the cfg is missing: ${what}`);
      return lines[at++];
    };
    const real = (word, what, blank) => {
      if (!word && blank !== undefined) return blank;
      const value = /^[+-]?(\d+\.?\d*|\.\d+)(e[+-]?\d+)?$/i.test(word ?? "") ? Number(word) : NaN;
      if (!Number.isFinite(value)) throw fault(`${what} is ${word ? `no number: ${word}` : "blank"}`);
      return value;
    };
    const whole = (word, what) => {
      if (!/^\d{1,10}$/.test(word ?? "")) throw fault(`${what} is no whole number`);
      return Number(word);
    };
    const head = next("station, device and edition");
    if (head.length < 2) throw fault("no station and device, so this is no configuration of a record");
    const year = head[2] === "2001" ? "1999" : head[2] || "1991";
    if (!["1991", "1999", "2013"].includes(year)) throw fault(`the edition is ${year}, none of 1991, 1999 and 2013`);
    const old = year === "1991";
    const counts = /^(\d{1,7}),(\d{1,7})A,(\d{1,7})D,*$/i.exec(next("the numbers of channels").join(","));
    if (!counts) throw fault("no numbers of channels, as 3,2A,1D");
    const [both, analogs, states] = counts.slice(1).map(Number);
    if (both !== analogs + states) throw fault(`${both} channels, and ${analogs} analog and ${states} status ones: the sum differs`);
    if (both > MOST_CHANNELS) throw fault(`${both} channels: more than ${MOST_CHANNELS.toLocaleString("en")} aren't read`);
    const analog = Array.from({ length: analogs }, (_, place) => {
      const fields = next("an analog channel");
      if (fields.length < (old ? 10 : 13)) throw fault(`an analog channel has ${fields.length} fields, not ${old ? 10 : 13}`);
      const made = {
        name: fields[1] || `analog ${place + 1}`, unit: fields[4], a: real(fields[5], "the multiplier"), b: real(fields[6], "the offset"),
        skew: real(fields[7], "the skew", 0) * 1e-6, low: real(fields[8], "the range", NaN),
          high: real(fields[9], "the range", NaN), ratio: 1, line: at,
      };
      if (old) return made;
      const [primary, secondary] = [real(fields[10], "the primary side", 0), real(fields[11], "the secondary side", 0)],
        scaling = fields[12].toUpperCase();
      if (!["", "P", "S"].includes(scaling)) throw fault(`the channel is ${fields[12]}, neither P (primary) nor S (secondary)`);
      const known = primary > 0 && secondary > 0;
      if (scaling === "S" && !known) throw fault("the channel has secondary values (S), and no ratio to its primary side");
      const isOpen = !scaling && known && primary !== secondary;
      if (isOpen) throw fault("the channel has a ratio, and nothing says whether its values are primary or secondary");
      if (scaling === "S") made.ratio = [primary, secondary];
      return made;
    });
    const status = Array.from({ length: states }, (_, place) => next("a status channel")[1] || `status ${place + 1}`);
    const frequency = real(next("the line frequency")[0], "the line frequency", NaN);
    const rateCount = whole(next("the number of sampling rates")[0], "the number of sampling rates"), rates = [];
    for (let count = 0; count < Math.max(1, rateCount); count++) {
      const fields = next("a sampling rate"), hertz = real(fields[0], "the sampling rate"),
        last = whole(fields[1], "the last sample's number");
      if (hertz < 0 || last <= (rates.at(-1)?.last ?? 0)) throw fault("the sampling rate or the last sample's number is out of order");
      rates.push({ hertz, last });
    }
    const moments = ["the time of the first sample", "the time of the trigger"].map(what => {
      const found = /^\d{1,2}\/\d{1,2}\/\d{2,4},\s*\d{1,2}:\d{2}:\d{2}(?:\.(\d+))?/.exec(next(what).join(","));
      return found && (found[1]?.length ?? 0);
    });
    const form = (next("the form of the data")[0] ?? "").replace("\x1a", "").toUpperCase();
    if (!FORMS.includes(form)) throw fault(`the form of the data is ${form || "blank"}, none of ${FORMS.join(", ")}`);
    // stamps of 2013 are ns where the instants have more than six decimals, else us, times the multiplier
    const fine = year === "2013" && moments.some(it => it > 6);
    const multiplier = old ? 1 : real(next("the multiplier of the time stamps")[0].replace("\x1a", ""),
      "the multiplier of the time stamps");
    if (!(multiplier > 0)) throw fault("the multiplier of the time stamps has to be above 0");
    const secondary = analog.filter(it => it.ratio !== 1).map(it => it.name);
    if (secondary.length) told.push(`recorded as secondary values, shown as primary: ${secondary.join(", ")}`);
    return { station: head[0], year, analog, status, frequency, rates, samples: rates.at(-1).last, form,
      unit: (fine ? 1e-9 : 1e-6) * multiplier, told };
  }

  // ---- the samples

  // Raw values, states and time stamps (NaN where blank) of a text.
  function readAscii(bytes, { analog, status, samples, year }) {
    const raw = analog.map(() => new Float64Array(samples)), states = status.map(() => new Uint8Array(samples)),
      stamps = new Float64Array(samples);
    const fields = 2 + analog.length + status.length;
    const gone = analog.map(it => year === "1991" ? 999999 : year === "2013" && it.high > 99999 ? NaN : 99999);
    const put = (sample, field, value) => {
      if (field === 1) stamps[sample] = value;
      else if (field >= 2 + analog.length) states[field - 2 - analog.length][sample] = value;
      else if (field >= 2) raw[field - 2][sample] = value === gone[field - 2] ? NaN : value;
    };
    const end = bytes.indexOf(0x1a) < 0 ? bytes.length : bytes.indexOf(0x1a);
    let at = 0, sample = 0, line = 0;
    // a line of any numbers
    const carefully = row => {
      const words = row.split(",").map(it => it.trim());
      if (words.length !== fields) throw new Error(`line ${line} of the dat has ${words.length} fields, and the cfg asks for ${fields}`);
      words.forEach((word, field) => {
        const value = word === "" ? NaN : Number(word), isState = field >= 2 + analog.length;
        const isNone = Number.isNaN(value) && word.toLowerCase() !== "nan" && word;
        if (isNone || isState && value !== 0 && value !== 1) throw new Error(`line ${line} of the dat has no number in field ${field + 1}`);
        put(sample, field, value);
      });
    };
    while (at < end) {
      const begin = at;
      line++;
      if (sample === samples) {
        if (text(bytes.subarray(at, end)).trim()) throw new Error(`the dat has more lines than the ${samples} samples of the cfg`);
        break;
      }
      let field = 0;
      for (; field < fields; field++) {
        let sign = 1, value = 0, digits = 0;
        while (bytes[at] === 0x20) at++;
        if (bytes[at] === 0x2d) { sign = -1; at++; }
        for (; bytes[at] >= 0x30 && bytes[at] <= 0x39; at++, digits++) value = 10 * value + bytes[at] - 0x30;
        while (bytes[at] === 0x20) at++;
        const last = field === fields - 1;
        if (last && bytes[at] === 0x0d) at++;
        if (bytes[at] !== (last ? 0x0a : 0x2c) || digits > 15 || !digits && (field < 1 || sign < 0 || field >= 2 + analog.length)) break;
        put(sample, field, digits ? sign * value : NaN);
        at++;
      }
      if (field < fields) {
        const found = bytes.indexOf(0x0a, begin);
        at = found < 0 || found > end ? end : found;
        const row = text(bytes.subarray(begin, at)).trim();
        at++;
        if (!row) continue;
        carefully(row);
      }
      sample++;
    }
    if (sample !== samples) throw new Error(`the dat has ${sample} lines, and the cfg names ${samples} samples`);
    return { raw, states, stamps };
  }

  // The same of the binary forms: a number and a stamp of 32 bits, the analog values, 16 states a word.
  function readBinary(bytes, { analog, status, samples, form }) {
    const wide = form === "BINARY" ? 2 : 4, width = 8 + wide * analog.length + 2 * Math.ceil(status.length / 16);
    if (bytes.length !== samples * width) {
      const asked = `the cfg asks for ${samples} samples of ${width}: one of them is cut, or of another record`;
      throw new Error(`the dat has ${bytes.length.toLocaleString("en")} bytes, and ${asked}`);
    }
    const view = new DataView(bytes.buffer, bytes.byteOffset, bytes.length);
    const raw = analog.map(() => new Float64Array(samples)), states = status.map(() => new Uint8Array(samples)),
      stamps = new Float64Array(samples);
    for (let sample = 0; sample < samples; sample++) {
      let at = sample * width + 4;
      const stamp = view.getUint32(at, true);
      stamps[sample] = stamp === 0xffffffff ? NaN : stamp;
      at += 4;
      for (const column of raw) {
        const value = form === "BINARY" ? view.getInt16(at, true) : form === "BINARY32" ? view.getInt32(at, true)
          : view.getFloat32(at, true);
        column[sample] = form === "FLOAT32" ? Number.isFinite(value) ? value : NaN
          : value === (wide === 2 ? -32768 : -2147483648) ? NaN : value;
        at += wide;
      }
      states.forEach((column, place) => { column[sample] = view.getUint16(at + 2 * (place >> 4), true) >> (place & 15) & 1; });
    }
    return { raw, states, stamps };
  }

  // The times in s from the first sample: by the sampling rates, else by the time stamps, which wrap at 32 bits or ten digits.
  function timesOf({ rates, samples, unit }, stamps) {
    const times = new Float64Array(samples);
    if (rates[0].hertz > 0) {
      let first = 0, begin = 0, ahead = 0;
      for (const { hertz, last } of rates) {
        for (let at = first; at < last; at++) times[at] = begin + (at - first + ahead) / hertz;
        [first, begin, ahead] = [last, times[last - 1], 1];
      }
      return times;
    }
    let before = stamps[0], added = 0;
    for (let at = 0; at < samples; at++) {
      if (Number.isNaN(stamps[at])) throw new Error(`the time stamp of sample ${at + 1} is blank, and no sampling rate gives the time`);
      if (stamps[at] < before) {
        const span = before < 2 ** 32 ? 2 ** 32 : 1e10;
        if (before - stamps[at] < span / 2) throw new Error(`the time stamp of sample ${at + 1} is below the one before it`);
        added += span;
      }
      before = stamps[at];
      times[at] = (stamps[at] + added - stamps[0]) * unit;
    }
    return times;
  }

  // The names, each once: a later one of the same text, or of one that is taken, gets .2, .3.
  function distinct(names, taken = []) {
    const given = new Set([...taken, ...names]), seen = new Set(taken), counts = new Map(taken.map(name => [name, 1]));
    return names.map(name => {
      let own = name, count = (counts.get(name) ?? 0) + 1;
      while (seen.has(own) || own !== name && given.has(own)) {
        count = Math.max(count, 2);
        own = `${name}.${count}`;
        count++;
      }
      counts.set(name, own === name ? count : count - 1);
      seen.add(own);
      return own;
    });
  }

  // A record: { station, times in s, channels: [{ name, unit, values, skew in s }], states: [{ name, values }], told }. Values are
  // primary ones, NaN where missing.
  function read(cfgBytes, datBytes) {
    const cfg = readCfg(cfgBytes), { raw, states, stamps } = (cfg.form === "ASCII" ? readAscii : readBinary)(datBytes, cfg);
    const names = distinct(cfg.analog.map(it => it.name)), bars = distinct(cfg.status, names);
    raw.forEach((values, place) => {
      const { a, b, ratio } = cfg.analog[place], times = ratio === 1 ? 1 : ratio[0] / ratio[1];
      for (let at = 0; at < values.length; at++) values[at] = (values[at] * a + b) * times;
    });
    return {
      station: cfg.station, frequency: cfg.frequency, told: cfg.told, times: timesOf(cfg, stamps),
      channels: raw.map((values, place) => ({ name: names[place], unit: cfg.analog[place].unit, skew: cfg.analog[place].skew, values })),
      states: states.map((values, place) => ({ name: bars[place], values })),
    };
  }

  // The parts of a cff that are read: the bytes of its configuration and of its data; null where the bytes are none.
  function sectionsOf(bytes) {
    const begins = bytes[0] === 0xef ? 3 : 0;
    if (!SECTION.test(text(bytes.subarray(begins, begins + 200)).split("\n")[0].replace(/\r$/, ""))) return null;
    let cfg = null, from = 0, kind = "", at = begins;
    while (at < bytes.length) {
      const end = bytes.indexOf(0x0a, at) < 0 ? bytes.length : bytes.indexOf(0x0a, at);
      const found = bytes[at] === 0x2d && end - at <= 200 && SECTION.exec(text(bytes.subarray(at, end)).replace(/\r$/, ""));
      if (found) {
        if (kind === "CFG") cfg = bytes.subarray(from, at);
        [kind, from] = [found[1].toUpperCase(), Math.min(end + 1, bytes.length)];
        if (kind === "DAT") {
          if (!cfg) throw new Error("the cff has no section CFG before its data");
          const size = found[3] === undefined ? bytes.length - from : Number(found[3]);
          if (size > bytes.length - from) throw new Error("the cff is cut: it announces more data than it has");
          // where data may hold a copy of its own, its bytes begin at a place of any kind
          return { cfg, dat: bytes.slice(from, from + size) };
        }
      }
      at = end + 1;
    }
    throw new Error("the cff has no section DAT");
  }

  // ---- what scan, batch and phasor print

  // The points of a scan: { frequency, value: { magnitude, angle } or null, why }, and the resonances.
  function readScan(bytes) {
    const points = [], resonances = [];
    for (const line of text(bytes).split("\n")) {
      const words = line.split(" ");
      if (words[0] === "F" && words[2] === "RE") {
        const re = Number(words[3]), im = Number(words[5]);
        points.push({ frequency: Number(words[1]), magnitude: Math.hypot(re, im), angle: Math.atan2(im, re) * 180 / Math.PI });
      } else if (words[0] === "F") points.push({ frequency: Number(words[1]), why: words.slice(2).join(" ") });
      else if (words[0] === "RESONANCE") resonances.push(Number(words[1]));
    }
    return { points, resonances };
  }

  // The rows of a batch: { row, how, peaks, words }, DONE where it ran to its end.
  function readBatch(bytes) {
    const rows = [];
    for (const line of text(bytes).split("\n")) {
      const found = /^ROW (\d+) (DONE|ENDED .*?) ?PEAKS ?(.*)$/.exec(line);
      if (found) rows.push({ row: Number(found[1]), how: found[2], words: found[3].split(" ").filter(Boolean) });
    }
    for (const it of rows) it.peaks = it.words.map(Number);
    return { rows, peaks: rows.map(it => it.peaks), ended: rows.filter(it => it.how !== "DONE") };
  }

  // The phasors of a steady state: { what, re, im, magnitude, angle in degrees }.
  function readPhasors(bytes) {
    return [...text(bytes).matchAll(/^(.*) RE (\S+) IM (\S+)$/gm)].map(([, what, re, im]) => ({
      what, re: Number(re), im: Number(im), magnitude: Math.hypot(re, im), angle: Math.atan2(im, re) * 180 / Math.PI,
    }));
  }

  return { read, readCfg, sectionsOf, readScan, readBatch, readPhasors, distinct, text };
})();
