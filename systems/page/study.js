// ---- study: tables of scattered times, values of a field, and what comes of their rows

const Study = (() => {
  // Numbers from 0 to 1, equal for equal seeds (the generator mulberry32).
  function random(seed) {
    let state = seed >>> 0;
    return () => {
      state = (state + 0x6d2b79f5) >>> 0;
      let mixed = Math.imul(state ^ (state >>> 15), state | 1);
      mixed ^= mixed + Math.imul(mixed ^ (mixed >>> 7), mixed | 61);
      return ((mixed ^ (mixed >>> 14)) >>> 0) / 4294967296;
    };
  }

  // The lines of a table for so many time switches: in each row a common time, equally likely anywhere in `cycle` seconds from `begin`
  // on, and of each switch an offset of its own with the deviation `sigma`, normal. Opening times are those of the cards.
  function scattered({ rows, seed, begin, cycle, sigma, count }) {
    const next = random(seed), normal = () => Math.sqrt(-2 * Math.log(1 - next())) * Math.cos(2 * Math.PI * next());
    return Array.from({ length: rows }, () => {
      const common = begin + cycle * next();
      return Array.from({ length: count }, () => `${(common + sigma * normal()).toFixed(9)} *`).join(" ");
    });
  }

  // The rows of a table, as texts: its lines that are neither blank nor comments.
  const rowsOf = table => table.split("\n").filter(line => line.trim() && !line.startsWith("#"));

  // The rows in parts, one for each worker or more, so that all end at about the same time.
  function parts(rows, workers) {
    const size = Math.max(1, Math.ceil(rows.length / (4 * workers)));
    return Array.from({ length: Math.ceil(rows.length / size) }, (_, at) => rows.slice(at * size, (at + 1) * size));
  }

  // What one batch of the whole table prints, of what those of its parts print: rows counted on, and of each channel its greatest peak
  // and the first row that has it.
  function joined(summaries) {
    const lines = [], most = [];
    let row = 0;
    for (const summary of summaries) {
      for (const line of summary.split("\n")) {
        const found = /^ROW \d+ (.* ?PEAKS ?(.*))$/.exec(line);
        if (!found) continue;
        row++;
        lines.push(`ROW ${row} ${found[1]}`);
        found[2].split(" ").filter(Boolean).forEach((text, place) => {
          if (!most[place] || Number(text) > Number(most[place].text)) most[place] = { text, row };
        });
      }
    }
    most.forEach((it, place) => lines.push(`MAX ${place + 1} ${it.text} ROW ${it.row}`));
    return lines.map(line => line + "\n").join("");
  }

  // The values of a text: "1, 2, 5", or "1 to 10 by 0.5"; an Error in words where it has none.
  function valuesOf(text) {
    const range = /^\s*(\S+)\s+to\s+(\S+)\s+by\s+(\S+)\s*$/i.exec(text);
    if (range) {
      const [from, to, by] = range.slice(1).map(Number);
      const isRange = [from, to, by].every(Number.isFinite) && by !== 0 && by * (to - from) >= 0;
      if (!isRange) throw new Error(`${text.trim()} is no range of values`);
      const count = Math.floor((to - from) / by * (1 + 1e-12) + 1e-9) + 1;
      if (count > 1000) throw new Error(`${count.toLocaleString("en")} values are more than 1,000`);
      return Array.from({ length: count }, (_, at) => String(Number((from + at * by).toPrecision(10))));
    }
    const found = text.split(",").map(it => it.trim()).filter(Boolean);
    if (!found.length) throw new Error("there are no values: 1, 2, 5 or 1 to 10 by 0.5");
    return found;
  }

  // The lines of a case with a value at the right of some columns of a line, as a number with a point where the field's own has one.
  function varied(lines, { line, from, to }, value) {
    const card = lines[line - 1];
    if (card === undefined) throw new Error(`the case has no line ${line}`);
    if (!(from >= 1 && from <= to && to <= 80)) throw new Error(`columns ${from} to ${to} are none of a card`);
    const own = card.slice(from - 1, to), wide = to - from + 1;
    const shown = !/[.]/.test(value) && /[.]/.test(own) && /^-?\d+$/.test(value) ? `${value}.` : value;
    if (shown.length > wide) throw new Error(`${shown} is longer than the ${wide} columns`);
    const made = card.padEnd(to);
    return [...lines.slice(0, line - 1), made.slice(0, from - 1) + shown.padStart(wide) + made.slice(to), ...lines.slice(line)];
  }

  // The greatest magnitude of some values.
  const peak = values => values.reduce((most, value) => Math.max(most, Math.abs(value)), 0);

  // Of values: their number, mean, deviation, the least that at most 2 % exceed, and the greatest.
  function statistics(values) {
    const ranked = values.filter(Number.isFinite).sort((a, b) => a - b), count = ranked.length;
    if (!count) return null;
    const mean = ranked.reduce((sum, value) => sum + value, 0) / count;
    const squares = ranked.reduce((sum, value) => sum + (value - mean) ** 2, 0);
    return { count, mean, deviation: count > 1 ? Math.sqrt(squares / (count - 1)) : 0, exceeded: Rules.notExceeded(ranked),
      greatest: ranked[count - 1] };
  }

  // The lines of a case with the times of a row of a table on the cards of its time switches, which stand on the lines `switches`.
  function withTimes(lines, switches, row) {
    const words = row.trim().split(/ +/);
    let found = lines;
    switches.forEach((line, at) => {
      [[15, 24, words[2 * at]], [25, 34, words[2 * at + 1]]].forEach(([from, to, word]) => {
        if (word === "*") return;
        if (word === "-") {
          found = varied(found, { line, from, to }, "");
          return;
        }
        // seven decimals and a point fit ten columns up to 9 s; a longer text is rounded to what fits
        let text = word;
        for (let digits = 9; text.length > 10 && digits > 0; digits--) text = Number(word).toFixed(digits).replace(/^(-?)0\./, "$1.");
        found = varied(found, { line, from, to }, text);
      });
    });
    return found;
  }

  return { random, scattered, rowsOf, parts, joined, valuesOf, varied, peak, statistics, withTimes };
})();
