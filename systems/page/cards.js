// ---- cards: as what the program reads each line of a case, and what is told of its fields

// `tables` is what systems/tables.py reads of docs/: { cards: { "Line 1": { ruler, fields, kinds } } }. A card is { kind, legend, fields,
// section }: what `show --fields` tells of a line, and the key of what docs/ say of it, null where they say nothing.
const Cards = (tables => {
  const bare = legend => legend.replace(/[-. ]+$/, "");
  const sections = new Map(Object.entries(tables.cards).map(([name, { ruler }]) => [bare(ruler), name]));
  const cardOf = (kind, legend = "", fields = []) => ({ kind, legend, fields, section: (legend && sections.get(bare(legend))) ?? null });
  const COMMENT = cardOf("a comment"), UNTOLD = cardOf("");
  const isComment = line => line === "C" || line.startsWith("C ");

  // A field of an answer. The unit and the range of a number, and as what it is read, are told by programs that know them.
  const UNITS = { whole: "a whole number", degree: "degrees", uF: "µF" };
  function fieldOf([, columns, name, text, unit = "", range = "", value = ""]) {
    const [from, to] = columns.split("-").map(Number), short = range.replace(/\b(\d)(0{6,})\b/g, (_, digit, zeros) => `${digit}e${zeros.length}`);
    return { from, to: to || from, name: name.trim(), text, unit: UNITS[unit] ?? unit, range: short, value };
  }

  // As what a field of a line is read, where that is another number than the one that stands there; else nothing.
  function readAs(it, line) {
    const text = line.slice(it.from - 1, it.to).trim();
    return it.value && text && text === it.text && Number(text.replace(/d/i, "E")) !== Number(it.value) ? it.value : "";
  }

  // What `show --fields` answers: `cards`, by the numbers of their lines; `due`, the card that is due behind them, or nothing; `refused`,
  // { line, from, to, name, note, why }: the field that is refused, with no name where it is none, or null.
  function read(answer) {
    const lines = answer.split("\n"), found = new Map();
    let at = 0, own = null, due = "";
    for (; at < lines.length; at++) {
      const cells = lines[at].split("\t");
      if (cells[0] === "" && cells.length > 3 && own) own.fields.push(fieldOf(cells));
      else if (!/^\d+$/.test(cells[0]) || cells.length < 2) break;
      else if (cells[1].startsWith("due: ")) due = cells[1].slice(5);
      else found.set(Number(cells[0]), own = cardOf(cells[1], cells[2]));
    }
    const place = lines.findIndex((line, row) => row >= at && line.startsWith("refused\t"));
    if (place < 0) return { cards: found, due, refused: null };
    const [, line, columns, name = ""] = lines[place].split("\t"), [from, to = from] = columns.split("-").map(Number);
    const why = lines.slice(place + 2).join("\n").trimEnd();
    return { cards: found, due, refused: { line: Number(line), from, to, name, note: lines[place + 1] ?? "", why } };
  }

  // The cards of lines that are others than those of the last answer: a line that is changed keeps its card until the next one.
  function carried(before, old, lines) {
    const most = Math.min(before.length, lines.length);
    let head = 0, tail = 0;
    while (head < most && before[head] === lines[head]) head++;
    while (tail < most - head && before[before.length - 1 - tail] === lines[lines.length - 1 - tail]) tail++;
    const changed = before.length - tail; // the first line behind the change, of those before
    return lines.map((line, at) => {
      if (isComment(line)) return COMMENT;
      const behind = at - (lines.length - tail), place = behind >= 0 ? changed + behind : at < changed ? at : -1;
      const one = old[place] ?? UNTOLD;
      return one === COMMENT ? UNTOLD : one;
    });
  }

  // The cards of all lines by an answer, or by several. A card that was put here and is blank still isn't the end of a section yet.
  const told = (lines, found, old) => lines.map((line, at) => isComment(line) ? COMMENT
    : old[at]?.awaited && !line.trim() ? old[at] : found.get(at + 1) ?? UNTOLD);

  // What stands in place of a refused card, so that the lines behind it are read as behind a mended one; null where nothing helps.
  function standIn(line, { kind }) {
    const type = parseInt(line.slice(0, 2), 10) || 0, code = line.slice(8, 10);
    const other = {
      "the card BEGIN NEW DATA CASE": "BEGIN NEW DATA CASE",
      "the first miscellaneous card": "   1.E-6   1.E-3",
      "the second miscellaneous card": "       1       1",
      "a block card": `${String(Math.min(Math.max(type, 0), 7)).padStart(2)}(BAD)`,
      "a card of coefficients": "        1.",
      "a branch card": type >= 98 && !line.slice(14, 26).trim() ? `${line.slice(0, 2)}(1)   (2)` : "C",
      "a supplemental card": code === "56" || code === "57" ? `88(BAD)  ${code}` : "C",
    }[kind] ?? "C";
    return other === line ? null : other;
  }

  // A card of a section that is put into a case: its fields are those of its ruler.
  function awaited(section) {
    const { ruler, fields } = tables.cards[section], places = new Map(fields.map(it => [it.from, it.to]));
    const own = [...places].map(([from, to]) => ({ from, to, name: ruler.slice(from - 1, to).replace(/[-.]+$/, ""), text: "" }));
    return { ...cardOf("", ruler, own), awaited: true };
  }

  // A ruler as a comment over its card, and the card's own words. The first two columns of a comment are its own: a name that
  // begins there stands behind them.
  function rulerAbove(section) {
    const { ruler, fields: [{ from, to }] } = tables.cards[section], own = from === 1 ? to : 0;
    const words = ruler.slice(0, from - 1).trimEnd(), label = ruler.slice(0, own).replace(/-+$/, "").slice(0, Math.max(0, own - 2));
    const behind = words ? " ".repeat(from - 3) + ruler.slice(from - 1) : ruler.slice(Math.max(2, own));
    const comment = `C ${label.padEnd(own - 2, "-")}${behind}`;
    return { comment: comment.trimEnd(), words };
  }

  // The fields of a card at a column, counted from 1.
  const fieldsAt = (card, column) => card.fields.filter(it => it.from <= column && column <= it.to);

  // What stands in the fields of a card that say which one it is.
  const type = card => parseInt(card.fields.find(it => it.from === 1)?.text, 10) || 0;
  const code = card => parseInt(card.fields.find(it => it.from === 9 && it.to === 10)?.text, 10) || 0;

  // What docs/ say of a field: what they have of its columns, of the card's type or code where that tells them apart.
  function docsOf(card, it) {
    const all = tables.cards[card.section]?.fields.filter(own => own.from === it.from && own.to === it.to) ?? [];
    const known = [type(card), code(card)].filter(Boolean), own = all.filter(one => one.types.some(number => known.includes(number)));
    return own.length ? own : all;
  }

  const isName = (card, it) => /^(BUS\d|NAME|INPUT|CONTRO)$/.test(it.name) || docsOf(card, it).some(own => /^(a name|names)$/.test(own.unit));
  const isText = (card, it) => isName(card, it) || docsOf(card, it).some(own => ["text", "a sign"].includes(own.unit));

  // What a field is, in words: what docs/ call it, its unit, its range, what a blank means. The program's own unit and range count more.
  function describe(card, it) {
    const blankOf = blank => blank && (/^(refused|.*;)/.test(blank) ? "blank: " + blank : "blank means " + blank);
    const said = (docsOf(card, it).length ? docsOf(card, it) : [{ name: "" }]).map(own => {
      const [head] = /^[^:;,]*/.exec(own.name), named = head.toUpperCase() === it.name;
      const parts = [named ? own.name.slice(head.length).replace(/^[:;,] */, "") : own.name, it.unit || own.unit, it.range || own.range];
      return [...parts, blankOf(own.blank)].filter(Boolean).join("; ");
    });
    return [...new Set(said)].join("; or ");
  }

  // What the type or code of a card is, where a table says it.
  const typeName = card => tables.cards[card.section]?.kinds[card.section.startsWith("Supplemental") ? code(card) : type(card)] ?? "";

  return { read, carried, told, standIn, awaited, rulerAbove, fieldsAt, readAs, describe, isName, isText, typeName, isComment, UNTOLD };
});
