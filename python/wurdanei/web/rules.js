// ---- rules: how what is drawn is shared among panes; their numbers are those of rules.json, as RULES

// wurdanei.drawing has the same rules for pictures of paper, by the same numbers; python/tests/drawn.json holds both to one table.
const Rules = (rules => {
  function scaled(values, factor, divisor) {
    const made = new Float64Array(values.length);
    for (let at = 0; at < made.length; at++) made[at] = values[at] * factor / divisor;
    return made;
  }

  // How many volts or amperes a unit of a channel has, and V or A; of another unit 1 and the unit, none of PU.
  function baseUnit(unit) {
    const found = /^([uµmkKMG]?)([VA])$/.exec(unit);
    if (found) return [rules.prefixes[found[1]], found[2]];
    return [1, unit.toUpperCase() === "PU" ? "" : unit];
  }

  // By what values in V or A are divided where their greatest magnitude is `most`, and the unit that they have then.
  const shownUnit = (unit, most) => most >= (rules.kilo[unit] ?? Infinity) ? [1000, "k" + unit] : [1, unit];

  // The greatest magnitude of some values.
  function greatest(values) {
    let most = 0;
    for (let at = 0; at < values.length; at++) if (Math.abs(values[at]) > most) most = Math.abs(values[at]);
    return most;
  }

  // The places of curves of these greatest magnitudes, in groups of like magnitude, the greatest first.
  function byMagnitude(sizes) {
    const ranks = sizes.map(() => 0);
    let rank = 0, most = Math.max(0, ...sizes);
    for (const place of sizes.map((_, at) => at).sort((a, b) => sizes[b] - sizes[a])) {
      if (sizes[place] > 0 && sizes[place] < most / rules.flat && rank < rules.most_panes - 1) {
        rank++;
        most = sizes[place];
      }
      ranks[place] = sizes[place] ? rank : 0;
    }
    return Array.from({ length: rank + 1 }, (_, wanted) => ranks.flatMap((own, at) => own === wanted ? [at] : [])).filter(it => it.length);
  }

  // Some of the values of a curve, as many as are compared, and how far they spread.
  function sampled(values) {
    const step = Math.max(1, Math.floor(values.length / rules.compared)), some = new Float64Array(Math.ceil(values.length / step));
    let low = Infinity, high = -Infinity;
    for (let at = 0; at < some.length; at++) {
      const value = values[at * step];
      some[at] = value;
      if (value < low) low = value;
      if (value > high) high = value;
    }
    return { some, spread: high > low ? high - low : 0 };
  }

  // How many of the other curves lie over this one for much of its time, so that it has to be drawn apart from them. All are
  // `sampled`, at the same times.
  function lying({ some, spread }, others) {
    const count = some.length, wanted = rules.overlap * count,
      near = rules.near * (others.reduce((most, it) => Math.max(most, it.spread), spread) || 1);
    return count && others.filter(other => {
      let same = 0;
      for (let at = 0; at < count && same < wanted; at++) if (Math.abs(some[at] - other.some[at]) <= near) same++;
      return same >= wanted;
    }).length;
  }

  const covering = (values, others) => lying(sampled(values), others.map(sampled));

  // A variable without unit that is 0 or 1 throughout, which is drawn as a bar.
  function isTwoValued(values, unit) {
    if (baseUnit(unit)[1] !== "" || !values.length) return false;
    return values.every(value => Math.min(Math.abs(value), Math.abs(value - 1)) < rules.two_valued);
  }

  // The unit of times over so many seconds, and the seconds that it has.
  function timeUnit(span) {
    const { unit, seconds } = rules.times.find(it => !(span >= it.below));
    return [unit, seconds];
  }

  // The least of rising peaks that at most 2 % of the rows exceed.
  const notExceeded = ranked => ranked[Math.max(0, Math.ceil(rules.not_exceeded * ranked.length) - 1)];

  // Channels { name, unit, values } over one x as panes of curves and one of bars below, colours counted on.
  function panesOf(channels, states, x) {
    const based = channels.map(it => ({ ...it, factor: baseUnit(it.unit)[0], base: baseUnit(it.unit)[1] }));
    const bars = [...based.filter(it => isTwoValued(it.values, it.unit)), ...states];
    const curves = based.filter(it => !bars.includes(it)), panes = [];
    let color = 0;
    for (const unit of new Set(curves.map(it => it.base))) {
      const own = curves.filter(it => it.base === unit), sizes = own.map(it => it.factor * greatest(it.values));
      for (const group of byMagnitude(sizes)) {
        const [divisor, shown] = shownUnit(unit, Math.max(...group.map(at => sizes[at]))), before = [];
        panes.push({
          unit: shown, axis: 0,
          curves: group.map(at => {
            const { name, values, factor } = own[at], y = factor === divisor ? values : scaled(values, factor, divisor), some = sampled(y);
            const dash = lying(some, before) % rules.styles;
            before.push(some);
            return { name, unit: shown, divisor, x, y, color: color++, dash };
          }),
        });
      }
    }
    if (bars.length) panes.push({ axis: 0, bars: bars.map(({ name, values }) => ({ name, x, values, color: color++ })) });
    return panes;
  }

  return { baseUnit, shownUnit, greatest, byMagnitude, covering, isTwoValued, timeUnit, notExceeded, panesOf };
})(RULES);
