// ---- measures: spectra, and how far two curves lie apart

// As wurdanei.spectrum, wurdanei.measures and wurdanei.compare have them; both are held to the same records.
const Measures = (() => {
  // The Fourier transform of complex values, in place, of a length that is a power of two.
  function transform(re, im, back) {
    const count = re.length;
    for (let at = 1, other = 0; at < count; at++) {
      let bit = count >> 1;
      for (; other & bit; bit >>= 1) other ^= bit;
      other ^= bit;
      if (at < other) {
        [re[at], re[other]] = [re[other], re[at]];
        [im[at], im[other]] = [im[other], im[at]];
      }
    }
    for (let size = 2; size <= count; size <<= 1) {
      const half = size >> 1, turn = (back ? 2 : -2) * Math.PI / size;
      const cosines = Float64Array.from({ length: half }, (_, at) => Math.cos(turn * at)),
        sines = Float64Array.from({ length: half }, (_, at) => Math.sin(turn * at));
      for (let begin = 0; begin < count; begin += size) {
        for (let at = 0; at < half; at++) {
          const low = begin + at, high = low + half;
          const real = re[high] * cosines[at] - im[high] * sines[at], imaginary = re[high] * sines[at] + im[high] * cosines[at];
          [re[high], im[high]] = [re[low] - real, im[low] - imaginary];
          [re[low], im[low]] = [re[low] + real, im[low] + imaginary];
        }
      }
    }
  }

  // The magnitudes of the first half of the Fourier transform of real values of any number (Bluestein, IEEE Transactions on Audio
  // and Electroacoustics 18, 1970).
  function magnitudes(values) {
    const count = values.length, size = 2 ** Math.ceil(Math.log2(2 * count));
    const angle = at => Math.PI * ((at * at) % (2 * count)) / count;
    const [aRe, aIm, bRe, bIm] = Array.from({ length: 4 }, () => new Float64Array(size));
    for (let at = 0; at < count; at++) {
      const [cosine, sine] = [Math.cos(angle(at)), Math.sin(angle(at))];
      aRe[at] = values[at] * cosine;
      aIm[at] = -values[at] * sine;
      bRe[at] = cosine;
      bIm[at] = sine;
      if (at) [bRe[size - at], bIm[size - at]] = [cosine, sine];
    }
    transform(aRe, aIm);
    transform(bRe, bIm);
    for (let at = 0; at < size; at++) [aRe[at], aIm[at]] = [aRe[at] * bRe[at] - aIm[at] * bIm[at], aRe[at] * bIm[at] + aIm[at] * bRe[at]];
    transform(aRe, aIm, true);
    return Float64Array.from({ length: Math.floor(count / 2) + 1 }, (_, at) => Math.hypot(aRe[at], aIm[at]) / size);
  }

  // Values at `wanted`, straight between those at rising `xs`; NaN outside of them.
  function between(wanted, xs, ys) {
    const made = new Float64Array(wanted.length);
    let at = 0;
    for (let place = 0; place < wanted.length; place++) {
      const x = wanted[place];
      if (!(x >= xs[0] && x <= xs[xs.length - 1])) {
        made[place] = NaN;
        continue;
      }
      while (at > 0 && xs[at] > x) at--;
      while (at + 1 < xs.length - 1 && xs[at + 1] <= x) at++;
      const next = Math.min(at + 1, xs.length - 1), span = xs[next] - xs[at];
      made[place] = x === xs[at] || !span ? ys[at] : x === xs[next] ? ys[next] : ys[at] + (ys[next] - ys[at]) * (x - xs[at]) / span;
    }
    return made;
  }

  const known = (xs, ys) => {
    const kept = [];
    for (let at = 0; at < ys.length; at++) if (Number.isFinite(ys[at])) kept.push(at);
    return [Float64Array.from(kept, at => xs[at]), Float64Array.from(kept, at => ys[at])];
  };

  // The crest values of values at rising times in s, by the window of von Hann: { hertz, crests, resolution, length, told }.
  function spectrum(times, values) {
    const LEAST = 8, count = values.length, told = [];
    const [its, good] = known(times, values);
    if (good.length < LEAST) throw new Error(`a spectrum wants ${LEAST} values, and there are ${good.length}`);
    const spacing = (times[count - 1] - times[0]) / (count - 1);
    let off = 0;
    for (let at = 0; at < count; at++) off = Math.max(off, Math.abs(times[at] - times[0] - spacing * at));
    if (off > 1e-6 * spacing + 1e-12 * Math.abs(times[count - 1])) told.push("samples aren't evenly spaced");
    if (good.length < count) told.push(`${count - good.length} values are missing`);
    const grid = () => Float64Array.from({ length: count }, (_, at) => times[0] + spacing * at);
    const within = time => Math.min(its[its.length - 1], Math.max(its[0], time));
    const even = told.length ? between(grid().map(within), its, good) : values;
    let sum = 0;
    const windowed = Float64Array.from(even, (value, at) => {
      const weight = 0.5 - 0.5 * Math.cos(2 * Math.PI * at / count);
      sum += weight;
      return value * weight;
    });
    const crests = magnitudes(windowed).map((value, at) => value * (at ? 2 : 1) / sum), resolution = 1 / (spacing * count);
    return {
      hertz: crests.map((_, at) => at * resolution), crests, resolution, length: spacing * count,
      told: told.length ? `${told.join(" and ")}: they are bridged by straight lines` : "",
    };
  }

  // The peaks of a spectrum above 0 Hz, the greatest first: { hertz, crest }, from the two greatest lines of each (Rife and Vincent,
  // Bell System Technical Journal 1970).
  function peaks({ crests, resolution }) {
    const SMALL = 1e-3, most = crests.reduce((a, b) => Math.max(a, b), 0), found = [];
    for (let at = 2; at + 1 < crests.length; at++) {
      if (!(crests[at] > crests[at - 1] && crests[at] >= crests[at + 1] && crests[at] >= SMALL * most)) continue;
      const side = crests[at + 1] >= crests[at - 1] ? 1 : -1, ratio = crests[at + side] / crests[at], away = (2 * ratio - 1) / (1 + ratio);
      const sinc = away ? Math.sin(Math.PI * away) / (Math.PI * away) : 1;
      found.push({ hertz: (at + side * away) * resolution, crest: crests[at] * (1 - away * away) / sinc });
    }
    return found.sort((a, b) => b.crest - a.crest);
  }

  // The least and the greatest value that a curve, straight between its samples, has within `width` of each of the rising places.
  function band(xs, ys, places, width) {
    const low = new Float64Array(places.length), high = new Float64Array(places.length);
    const begins = between(places.map(x => Math.max(xs[0], x - width)), xs, ys),
      ends = between(places.map(x => Math.min(xs[xs.length - 1], x + width)), xs, ys);
    // the places of samples that may be the least or the greatest, as the window goes on
    const least = [], most = [];
    let next = 0, leastAt = 0, mostAt = 0;
    for (let at = 0; at < places.length; at++) {
      for (; next < xs.length && xs[next] < places[at] + width; next++) {
        while (least.length > leastAt && ys[least.at(-1)] >= ys[next]) least.pop();
        while (most.length > mostAt && ys[most.at(-1)] <= ys[next]) most.pop();
        least.push(next);
        most.push(next);
      }
      while (leastAt < least.length && xs[least[leastAt]] < places[at] - width) leastAt++;
      while (mostAt < most.length && xs[most[mostAt]] < places[at] - width) mostAt++;
      low[at] = Math.min(begins[at], ends[at], leastAt < least.length ? ys[least[leastAt]] : Infinity);
      high[at] = Math.max(begins[at], ends[at], mostAt < most.length ? ys[most[mostAt]] : -Infinity);
    }
    return { low, high };
  }

  const percent = (part, whole) => whole ? 100 * part / whole : part ? Infinity * Math.sign(part) : 0;
  const rms = values => Math.sqrt(values.reduce((sum, value) => sum + value * value, 0) / values.length);
  const peak = values => values.reduce((most, value) => Math.max(most, Math.abs(value)), 0);

  // How far a measured curve lies from a case's: each { times in s, values }, in one unit. `shift` is the measured time less the case's,
  // `factor` multiplies the measured values (null: it is found), `tolerance` is in % of the measured curve. Of the answers `rms`, `peak`,
  // `beyond` and `share` are in %, as docs/compare.md says; null where they have fewer than eight samples in common.
  function compare(one, measured, { shift = 0, factor = 1, tolerance = 5, from = -Infinity, to = Infinity } = {}) {
    const FEWEST = 8, [xs, ys] = known(one.times, one.values), [times, given] = known(measured.times, measured.values);
    const steps = Array.from(times.subarray(1), (time, at) => time - times[at]).sort((a, b) => a - b), half = steps.length >> 1;
    const step = steps.length % 2 ? steps[half] : (steps[half - 1] + steps[half]) / 2;
    const inside = [];
    times.forEach((time, at) => {
      const own = time - shift;
      if (own >= Math.max(from, xs[0]) && own <= Math.min(to, xs[xs.length - 1])) inside.push(at);
    });
    if (inside.length < FEWEST) return null;
    const at = Float64Array.from(inside, place => times[place] - shift), u = between(at, xs, ys),
      raw = Float64Array.from(inside, place => given[place]);
    const dot = (a, b) => a.reduce((sum, value, place) => sum + value * b[place], 0);
    const used = factor ?? (dot(raw, raw) ? dot(u, raw) / dot(raw, raw) : 1), v = raw.map(value => value * used);
    const { low, high } = band(xs, ys, at, step), off = v.map((value, place) => Math.max(0, value - high[place], low[place] - value));
    const greatest = peak(v);
    const made = {
      count: at.length, factor: used, rms: percent(rms(u.map((value, place) => value - v[place])), rms(v)),
        peak: percent(peak(u) - greatest, greatest),
      beyond: percent(peak(off), greatest), share: 100 * off.filter(value => value > tolerance / 100 * greatest).length / off.length,
    };
    return { ...made, within: made.rms <= tolerance && made.beyond <= tolerance, times: at, low, high };
  }

  // The shift (the measured time less the case's, in s) by which pairs [case, measured, factor] lie nearest together, by least squares,
  // each counted by its own power; at least 80 % of the shorter record have to have a partner. Null where none has.
  function fitted(pairs) {
    const OVERLAP = 0.8, MOST = 4000, its = [];
    for (const [one, measured, factor] of pairs) {
      const [xs, ys] = known(one.times, one.values), [times, given] = known(measured.times, measured.values);
      if (times.length < 8 || xs.length < 8 || Rules.greatest(ys) === 0 || Rules.greatest(given) === 0) continue;
      const thin = Math.max(1, Math.floor(times.length / 2000));
      const kept = Array.from({ length: Math.ceil(times.length / thin) }, (_, at) => at * thin);
      its.push({ xs, ys, times: Float64Array.from(kept, at => times[at]),
        values: Float64Array.from(kept, at => given[at] * (factor ?? 1)), free: factor === null });
    }
    if (!its.length) return null;
    const span = xs => xs[xs.length - 1] - xs[0];
    const misfit = shift => {
      let sum = 0;
      for (const { xs, ys, times, values, free } of its) {
        const u = between(times.map(time => time - shift), xs, ys);
        let count = 0, uu = 0, vv = 0, uv = 0;
        for (let at = 0; at < u.length; at++) {
          if (Number.isNaN(u[at])) continue;
          count++;
          uu += u[at] * u[at];
          vv += values[at] * values[at];
          uv += u[at] * values[at];
        }
        if (count < OVERLAP * times.length * Math.min(1, span(xs) / span(times)) || !vv) return Infinity;
        sum += free ? 0.5 * (1 - (uu ? uv * uv / (uu * vv) : 0)) : (uu - 2 * uv + vv) / (uu + vv);
      }
      return sum;
    };
    const { xs, times } = its[0], long = Math.max(span(xs), span(times)), short = Math.min(span(xs), span(times));
    const middle = times[0] - xs[0], low = middle - (long - OVERLAP * short), high = middle + (long - OVERLAP * short);
    let best = null, least = Infinity, step = Math.max(span(times) / (times.length - 1) / 2, (high - low) / MOST);
    const look = (from, to, by) => {
      for (let shift = from; shift <= to + by / 2; shift += by) {
        const own = misfit(shift);
        if (own < least) [least, best] = [own, shift];
      }
    };
    look(low, high, step);
    if (best === null) return null;
    for (let count = 0; count < 8; count++) {
      look(best - step, best + step, step / 5);
      step /= 5;
    }
    return best;
  }

  return { magnitudes, fitted, between, spectrum, peaks, band, compare };
})();
