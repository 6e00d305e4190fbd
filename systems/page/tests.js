// ---- tests: what the page's pure parts say, by values that are known from elsewhere

// Each is a function that throws where something isn't so; systems/units runs them in a browser.
const TESTS = (() => {
  const same = (found, wanted, what = "") => {
    const [a, b] = [found, wanted].map(it => JSON.stringify(it, (_, value) => ArrayBuffer.isView(value) ? [...value]
      : value === undefined ? "nothing" : value));
    if (a !== b) throw new Error(`${what} ${a.slice(0, 300)} and not ${b.slice(0, 300)}`);
  };
  const near = (found, wanted, within, what = "") => {
    if (!(Math.abs(found - wanted) <= within)) throw new Error(`${what} ${found} and not ${wanted}`);
  };
  const fails = (does, words) => {
    try { does(); } catch (fault) {
      if (!fault.message.includes(words)) throw new Error(`it says "${fault.message}" and not "${words}"`);
      return;
    }
    throw new Error(`it doesn't say "${words}"`);
  };
  const bytes = text => new TextEncoder().encode(text);
  const CFG = "S,D,1999\r\n3,2A,1D\r\n1,VA,A,BUS,kV,0.5,-1,0,-32767,32767,400,0.1,P\r\n2,IA,A,BAY,A,2,0,25,-32767,32767,2000,5,S\r\n1,TRIP,,,0\r\n"
    + "50\r\n1\r\n1000,3\r\n28/11/2026,13:07:20.500000\r\n28/11/2026,13:07:20.502000\r\nASCII\r\n1\r\n";
  const DAT = "1,0,10,-3,0\r\n2,1000,99999,4,1\r\n3,2000,-20,5,1\r\n\x1a";

  return {
    "ticks are round values from end to end": () => {
      same(Plot.ticks(0, 14, 7).map(it => it.text), ["0", "2", "4", "6", "8", "10", "12", "14"]);
      same(Plot.ticks(-0.3, 0.3, 3).map(it => it.text), ["-0.2", "0", "0.2"]);
      same(Plot.ticks(0, 300000, 3).map(it => it.text), ["0", "100\u2009000", "200\u2009000", "300\u2009000"]);
      same(Plot.ticks(1e-9, 5e-9, 4).map(it => it.text), ["1e-9", "2e-9", "3e-9", "4e-9", "5e-9"]);
    },
    "ticks of a logarithmic axis are 1, 2, 5 or powers alone": () => {
      same(Plot.logTicks(10, 100, 9).map(it => it.value), [10, 20, 50, 100]);
      same(Plot.logTicks(1, 1e4, 5).map(it => it.value), [1, 10, 100, 1000, 1e4]);
    },
    "a logarithmic axis has its middle at the root of the product": () => {
      const axis = { from: 10, to: 1000, log: true };
      near(Plot.at(axis, 0.5), 100, 1e-9);
      near(Plot.share(axis, 100), 0.5, 1e-12);
    },
    "the nearest point": () => {
      same([-5, 0, 0.4, 0.6, 2.6, 9].map(x => Plot.nearest([0, 1, 2, 3], x)), [0, 0, 0, 1, 3, 3]);
      same(Plot.nearest([], 1), -1);
    },
    "the points of a view have one more at each side": () => {
      same(Plot.visible([0, 1, 2, 3, 4], 1.5, 2.5), [1, 3]);
      same(Plot.visible([0, 1, 2, 3, 4], 0, 4), [0, 4]);
    },
    "thinning keeps each peak": () => {
      const plot = Object.create(Plot.prototype);
      plot.columns = new WeakMap();
      const x = Float64Array.from({ length: 10000 }, (_, at) => at), y = x.map(at => at === 4321 ? 7 : at === 8765 ? -9
        : at === 5000 ? NaN : Math.sin(at));
      const thin = plot.thinned(x, y, { from: 0, to: 9999 }, 100);
      same([Math.max(...thin.high.subarray(0, thin.count)), Math.min(...thin.low.subarray(0, thin.count))], [7, -9]);
      same(thin.count <= 103, true);
      same(plot.thinned(x, y, { from: 0, to: 9999 }, 100) === thin, true, "kept");
    },
    "extremes are those of the view": () => {
      const it = { x: [0, 1, 2, 3, 4], y: [9, 1, 5, NaN, -9] };
      same(Panel.extremes(it, { from: 0, to: 4 }), [4, 0]);
      same(Panel.extremes(it, { from: 0.5, to: 3.5 }), [1, 2]);
    },
    "values as a table": () => {
      const x = [0, 1, 2], items = [{ name: "a,b", unit: "V", x, y: [1, NaN, 3] }, { name: "S", x, values: [0, 1, 1] }];
      same(Panel.csv({ unit: "ms", from: 0, to: 1.5 }, items), 'ms,"a,b in V",S\n0,1,0\n1,,1\n');
    },
    "a record of two files": () => {
      const it = Records.read(bytes(CFG), bytes(DAT));
      same(it.times, [0, 0.001, 0.002]);
      same(it.channels.map(({ name, unit, values }) => [name, unit, [...values].map(value => Number.isNaN(value) ? "gone" : value)]),
        [["VA", "kV", [4, "gone", -11]], ["IA", "A", [-2400, 3200, 4000]]]);
      same(it.states, [{ name: "TRIP", values: [0, 1, 1] }]);
      same(it.told, ["recorded as secondary values, shown as primary: IA"]);
    },
    "a record in one file": () => {
      const parts = Records.sectionsOf(bytes(`--- file type: CFG ---\r\n${CFG}--- file type: DAT ASCII ---\r\n${DAT}`));
      same(Records.read(parts.cfg, parts.dat).channels[0].values[0], 4);
      same(Records.sectionsOf(bytes(CFG)), null);
      fails(() => Records.sectionsOf(bytes(`--- file type: CFG ---\r\n${CFG}`)), "no section DAT");
    },
    "spoilt records are refused in words": () => {
      fails(() => Records.read(bytes(CFG.replace("3,2A", "4,2A")), bytes(DAT)), "the sum differs");
      fails(() => Records.read(bytes(CFG.replace(",0.5,", ",x,")), bytes(DAT)), "line 3 of the cfg: the multiplier is no number");
      fails(() => Records.read(bytes(CFG), bytes(DAT.replace("3,2000,-20,5,1\r\n", ""))), "2 lines, and the cfg names 3");
      fails(() => Records.read(bytes(CFG), bytes(DAT.replace("2,1000,99999", "2,1000,q"))), "line 2 of the dat");
      fails(() => Records.read(bytes(CFG.replace("ASCII", "BINARY")), new Uint8Array(41)), "41 bytes");
      fails(() => Records.read(bytes("\x89PNG\r\n"), bytes("")), "so this is no configuration of a record");
      fails(() => Records.read(bytes(CFG.slice(0, 60)), bytes(DAT)), "line");
    },
    "names that stand twice": () => same(Records.distinct(["a", "a", "a.2", "b", "a"]), ["a", "a.3", "a.2", "b", "a.4"]),
    "phasors have magnitude and angle": () => {
      const [it] = Records.readPhasors(bytes("NODE A RE 3 IM -4\n"));
      near(it.magnitude, 5, 1e-12);
      near(it.angle, -53.13010235415598, 1e-9);
    },
    "a spectrum shows a sine by its crest": () => {
      const times = Float64Array.from({ length: 1500 }, (_, at) => at * 1e-4),
        values = times.map(time => 7 * Math.cos(2 * Math.PI * 123.4 * time + 1) + 2);
      const made = Measures.spectrum(times, values), [first] = Measures.peaks(made);
      near(made.crests[0], 2, 0.01);
      near(first.hertz, 123.4, 0.1);
      near(first.crest, 7, 0.02);
      fails(() => Measures.spectrum([0, 1], [1, 2]), "wants 8 values");
    },
    "the transform of any length": () => {
      const values = Float64Array.from({ length: 35 }, (_, at) => Math.sin(at * at) + at), found = Measures.magnitudes(values);
      for (let line = 0; line < found.length; line++) {
        let re = 0, im = 0;
        values.forEach((value, at) => {
          re += value * Math.cos(2 * Math.PI * line * at / 35);
          im += value * Math.sin(2 * Math.PI * line * at / 35);
        });
        near(found[line], Math.hypot(re, im), 1e-9, `line ${line}`);
      }
    },
    "values between samples": () => {
      same([...Measures.between([0, 0.5, 2.25, 3], [0, 1, 3], [0, 2, 4])], [0, 1, 3.25, 4]);
      same([...Measures.between([-1, 4], [0, 3], [0, 1])].map(Number.isNaN), [true, true]);
    },
    "a band has each value within its width": () => {
      const xs = Array.from({ length: 40 }, (_, at) => at * 0.25), ys = xs.map(x => Math.sin(5 * x)), places = Float64Array.of(1, 2.1, 9);
      const { low, high } = Measures.band(xs, ys, places, 0.6);
      places.forEach((place, at) => {
        const ends = [...Measures.between([Math.max(0, place - 0.6), Math.min(xs[39], place + 0.6)], xs, ys)];
        const inside = ys.filter((_, sample) => Math.abs(xs[sample] - place) < 0.6);
        near(low[at], Math.min(...ends, ...inside), 1e-12);
        near(high[at], Math.max(...ends, ...inside), 1e-12);
      });
    },
    "a shift is found": () => {
      const wave = time => Math.exp(-((time - 0.05) ** 2) / 1e-5) * Math.sin(900 * time);
      const own = Float64Array.from({ length: 1001 }, (_, at) => at * 1e-4),
        other = Float64Array.from({ length: 400 }, (_, at) => 0.02 + at * 2e-4);
      const found = Measures.fitted([[{ times: own, values: own.map(wave) },
        { times: other, values: other.map(time => wave(time - 0.0123)) }, 1]]);
      near(found, 0.0123, 2e-6);
    },
    "a table of scattered times": () => {
      const words = { rows: 2000, seed: 7, begin: 0.1, cycle: 0.02, sigma: 0.001, count: 3 }, lines = Study.scattered(words);
      same(lines, Study.scattered(words), "equal seeds");
      same(lines.join() === Study.scattered({ ...words, seed: 8 }).join(), false, "other seeds");
      const closing = lines.map(line => line.split(" ").filter(word => word !== "*").map(Number)),
        means = closing.map(row => (row[0] + row[1] + row[2]) / 3);
      near(means.reduce((a, b) => a + b) / 2000, 0.11, 0.001, "the mean of the common time");
      const apart = closing.map(row => row[0] - row[1]), spread = Math.sqrt(apart.reduce((sum, value) => sum + value * value, 0) / 2000);
      near(spread, 0.001 * Math.SQRT2, 0.0001, "the deviation between two poles");
    },
    "parts of a batch are joined": () => {
      const parts = ["ROW 1 DONE PEAKS 75 2\nROW 2 DONE PEAKS 125 1\nMAX 1 125 ROW 2\nMAX 2 2 ROW 1\n",
        "ROW 1 ENDED STEP 4 RANGE BUS PEAKS 125 9.5\nMAX 1 125 ROW 1\nMAX 2 9.5 ROW 1\n"];
      same(Study.joined(parts), "ROW 1 DONE PEAKS 75 2\nROW 2 DONE PEAKS 125 1\nROW 3 ENDED STEP 4 RANGE BUS PEAKS 125 9.5\nMAX 1 125 ROW 2\nMAX 2 9.5 ROW 3\n");
      same(Study.parts([1, 2, 3, 4, 5], 1), [[1, 2], [3, 4], [5]]);
      same(Study.rowsOf("# a\n\n 1. 2.\n   \n* -\n"), [" 1. 2.", "* -"]);
    },
    "values of a text": () => {
      same(Study.valuesOf("1, 2.5,3E4"), ["1", "2.5", "3E4"]);
      same(Study.valuesOf("1 to 2 by .25"), ["1", "1.25", "1.5", "1.75", "2"]);
      fails(() => Study.valuesOf(" "), "no values");
      fails(() => Study.valuesOf("1 to 5 by -1"), "no range");
    },
    "a field is varied": () => {
      const place = { line: 1, from: 5, to: 8 };
      same(Study.varied(["abcd 1. xyz"], place, "20"), ["abcd 20.xyz"]);
      fails(() => Study.varied(["abc"], place, "12345"), "longer than the 4 columns");
      fails(() => Study.varied(["abc"], { line: 2, from: 1, to: 2 }, "1"), "no line 2");
    },
    "the times of a row stand on their cards": () => {
      const card = "  A     B            0.01       1.0", made = Study.withTimes(["x", card], [2], " 0.0123456789 - ");
      same(made[1].slice(14, 24), ".012345679");
      same(made[1].slice(24, 34), "          ");
      same(Study.withTimes(["x", card], [2], "* *"), ["x", card]);
    },
    "statistics of peaks": () => {
      const it = Study.statistics([1, 2, 3, 4]);
      same([it.count, it.mean, it.greatest, it.exceeded], [4, 2.5, 4, 4]);
      near(it.deviation, Math.sqrt(5 / 3), 1e-12);
      same(Study.statistics([]), null);
    },
    "what the program tells of each line": () => {
      const fields = [{ from: 1, to: 2, name: "type: 11 a step, 14 a cosine", types: [], unit: "a whole number", range: "", blank: "refused" },
        { from: 3, to: 8, name: "name: of a node", types: [], unit: "a name", range: "", blank: "refused" },
        { from: 31, to: 40, name: "T0, the rise", types: [12], unit: "s", range: "0 to 1", blank: "0" },
        { from: 31, to: 40, name: "phase in degrees", types: [14], unit: "degrees", range: "", blank: "0" }];
      const ruler = "TYNAME--KIAMPLITUDE-FREQUENCY-T0/PHASE--", own = Cards({ cards: { "Source 1": { ruler, fields, kinds: { 14: "a cosine" } } } });
      const told = own.read(`1\tthe card BEGIN NEW DATA CASE\t\n7\ta source card\t${ruler}\n\t1-2\tTY\t14\n\t3-8\tNAME\tSRC\n`
        + "\t31-40\tT0/PHASE\t-90.\tdegree\t-3000000 to 1000000000\t-90\n8\tdue: a source card\nwarning, line 7, a\nrefused\t7\t3-8\tNAME\nBAD CARD LINE 7\n^ why\n");
      same([...told.cards.keys()], [1, 7]);
      same([told.due, told.refused], ["a source card", { line: 7, from: 3, to: 8, name: "NAME", note: "BAD CARD LINE 7", why: "^ why" }]);
      const card = told.cards.get(7);
      same([card.kind, card.section, own.typeName(card)], ["a source card", "Source 1", "a cosine"]);
      same(card.fields.map(it => own.describe(card, it)), ["type: 11 a step, 14 a cosine; a whole number; blank: refused",
        "of a node; a name; blank: refused", "phase in degrees; degrees; -3e6 to 1e9; blank means 0"]);
      same(own.describe(own.awaited("Source 1"), { from: 31, to: 40, name: "T0/PHASE" }),
        "T0, the rise; s; 0 to 1; blank means 0; or phase in degrees; degrees; blank means 0");
      const one = (text, value) => own.readAs({ from: 3, to: 8, text, value }, `14${text.padStart(6)}`);
      same([["1.5D1", "15"], [".12345", "0.1234"], ["0.", "never"], ["", "0"], ["1.", ""], ["2-3", "0.002"]].map(it => one(...it)),
        ["", "0.1234", "never", "", "", "0.002"]);
      same(own.readAs({ from: 3, to: 8, text: "1.", value: "1" }, "14    2."), "");
      same(own.fieldsAt(card, 8).map(it => it.name), ["NAME"]);
      same([own.isName(card, card.fields[1]), own.isName(card, card.fields[2])], [true, false]);
      same(own.read("refused\t1\t5\t\nBAD CARD LINE 1\n").refused, { line: 1, from: 5, to: 5, name: "", note: "BAD CARD LINE 1", why: "" });
    },
    "lines keep their cards until the next answer": () => {
      const own = Cards({ cards: {} }), kinds = found => found.map(it => it.kind), lines = ["a", "b", "C c", "d", "e"];
      const all = own.told(lines, new Map([1, 2, 4, 5].map(line => [line, { kind: `kind ${line}` }])), []);
      same(kinds(all), ["kind 1", "kind 2", "a comment", "kind 4", "kind 5"]);
      same(kinds(own.carried(lines, all, ["a", "b!", "C c", "d", "e"])), ["kind 1", "kind 2", "a comment", "kind 4", "kind 5"]);
      same(kinds(own.carried(lines, all, ["a", "b", "C c", "new", "d", "e"])), ["kind 1", "kind 2", "a comment", "", "kind 4", "kind 5"]);
      same(kinds(own.carried(lines, all, ["a", "C c", "d", "e"])), ["kind 1", "a comment", "kind 4", "kind 5"]);
      same(kinds(own.carried(lines, all, ["a", "b", "c", "d", "e"])), ["kind 1", "kind 2", "", "kind 4", "kind 5"]);
      same(kinds(own.carried([], [], ["a", "C"])), ["", "a comment"]);
      same(kinds(own.carried(["x", "x"], [{ kind: "1" }, { kind: "2" }], ["x"])), ["1"]);
    },
    "a blameless card stands in place of a refused one": () => {
      const own = Cards({ cards: {} });
      same(["a block card", "a branch card", "a switch card"].map(kind => own.standIn(" 9A", { kind })), [" 7(BAD)", "C", "C"]);
      same(own.standIn("99A     B       9.", { kind: "a branch card" }), "C");
      same(own.standIn("99A     B", { kind: "a branch card" }), "99(1)   (2)");
      same(own.standIn("C", { kind: "a switch card" }), null);
    },
    "a ruler as a comment keeps the names of its fields": () => {
      const own = Cards({ cards: {
        time: { ruler: "DELTAT--TMAX----XOPT----COPT----", fields: [{ from: 1, to: 8 }] },
        points: { ruler: "POWER-----POWER-----", fields: [{ from: 1, to: 10 }] },
        branch: { ruler: "TYBUS1--BUS2--   A", fields: [{ from: 1, to: 2 }] },
        tight: { ruler: "T-CLOSE-T-OPEN--", fields: [{ from: 1, to: 8 }] },
        words: { ruler: "RESIDUAL TOLERANCE      TOLER---", fields: [{ from: 25, to: 32 }] },
      } });
      same(["time", "points", "branch", "tight", "words"].map(it => own.rulerAbove(it).comment), ["C DELTATTMAX----XOPT----COPT----",
        "C POWER---POWER-----", "C BUS1--BUS2--   A", "C T-CLOST-OPEN--", `C${" ".repeat(23)}TOLER---`]);
      same(["branch", "words"].map(it => own.rulerAbove(it).words), ["", "RESIDUAL TOLERANCE"]);
    },
    "fixes of a refused card": () => {
      const labels = (lines, refusal, names = []) => Fixes.of(lines, refusal, names).map(it => it.label);
      same(labels(["14src   1."], { line: 1, from: 3, to: 8 }, ["SRC"])[0], "write SRC for src");
      same(Fixes.of(["  A      x1."], { line: 1, from: 10, to: 14 },
        []).find(it => it.label === "move it 1 column to the left").lines, ["  A     x1."]);
      same(labels(["S  L"], { line: 1, from: 0, to: 0 }), ["put BLANK above it"]);
    },
    "the manual's pages": () => {
      const text = "# Page\n\nA `b` **c** [d](e.md#f).\n\n## Two\n\n- one\n  more\n- two\n\n    code\n\n| a | b |\n|---|---|\n| 1 | 2 |\n";
      same(Markdown.sections("p", text).map(it => it.title), ["Page", "Two"]);
      same(Markdown.blocks(text).map(it => it.kind), ["heading", "text", "heading", "list", "code", "table"]);
      same(Markdown.blocks(text)[3].items, ["one more", "two"]);
      same(Markdown.blocks("| a \\| b | c |\n")[0].rows, [["a | b", "c"]]);
      same(Markdown.blocks("1. a\n2. b\n"), [{ kind: "list", items: ["1. a", "2. b"], numbered: true }]);
      same(Markdown.blocks(text)[5].rows, [["a", "b"], ["1", "2"]]);
      same(Markdown.inline("A `b` **c** [d](e.md#f)").map(it => it.kind + it.text), ["A ", "codeb", " ", "strongc", " ", "linkd"]);
      same(Markdown.matching(Markdown.sections("p", text), "code").map(it => it.title), ["Two"]);
    },
    "a record of volts, states and references": () => {
      const times = Float64Array.of(0, 0.001, 0.002),
        record = { times, channels: [{ name: "V", unit: "V", values: Float64Array.of(0, 2000, -1) }],
        states: [{ name: "S", values: Uint8Array.of(0, 1, 1) }] };
      const picture = Pictures.ofRecord(record, "title");
      same(picture.panes.map(pane => pane.unit ?? "bars"), ["kV", "bars"]);
      same(picture.axes[0].unit, "ms");
      Pictures.putBehind(picture, [{ record: { times: Float64Array.of(0, 1),
        channels: [{ name: "V", unit: "kV", values: Float64Array.of(1, 2) }] }, offset: 0.5 }]);
      same(picture.panes[0].curves[0].behind, [{ x: [500, 1500], y: [1, 2] }]);
    },
  };
})();
