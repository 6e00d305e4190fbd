// ---- the editor

const editor = (() => {
  const area = $("cards"), HEIGHT = 20, PAD = 4;
  let lines = [""], read = [], wide = 8, overwrites = false, leaves = false, frame = 0;
  let marks = new Map(); // by line: [{ kind, from, to, text }]

  const text = () => area.value;
  const measure = () => {
    $("probe").textContent = "0".repeat(200);
    wide = $("probe").getBoundingClientRect().width / 200 || 8;
  };

  // The line and the column of the cursor, counted from 1.
  function place() {
    const before = area.value.slice(0, area.selectionDirection === "backward" ? area.selectionStart : area.selectionEnd);
    const line = before.split("\n").length;
    return { line, column: before.length - before.lastIndexOf("\n") };
  }

  const offset = (line, column) => {
    let at = 0;
    for (let count = 1; count < line; count++) at += lines[count - 1].length + 1;
    return at + Math.min(column - 1, lines[line - 1].length);
  };

  function goto(line, column, last = column) {
    line = Math.min(Math.max(1, line), lines.length);
    area.focus();
    area.setSelectionRange(offset(line, column), offset(line, last));
    const top = (line - 1) * HEIGHT, left = (column - 1) * wide;
    const { scrollTop, scrollLeft, clientHeight, clientWidth } = area;
    if (top < scrollTop || top > scrollTop + clientHeight - 2 * HEIGHT) area.scrollTop = Math.max(0, top - clientHeight / 3);
    if (left < scrollLeft || left > scrollLeft + clientWidth - 4 * wide) area.scrollLeft = Math.max(0, left - clientWidth / 3);
    redraw();
  }

  // Another case. Its cursor waits in the first column for what the program says of its lines.
  function setText(value) {
    area.value = value;
    marks = new Map();
    lines = read = [];
    changed();
    area.setSelectionRange(0, 0);
    area.scrollTop = area.scrollLeft = 0;
  }

  function changed() {
    const now = area.value.split("\n");
    read = cards.carried(lines, read, now);
    lines = now;
    redraw();
  }

  // What the program says that the lines are. A cursor that waits goes to the first branch, so that a ruler is seen.
  function setCards(found) {
    const waits = !area.selectionStart && !area.selectionEnd && !read.some(it => it.kind && it.kind !== "a comment");
    read = cards.told(lines, found, read);
    const branch = read.findIndex(it => it.kind === "a branch card");
    if (waits && branch >= 0) area.setSelectionRange(offset(branch + 1, 3), offset(branch + 1, 3));
    redraw();
    form.follow();
  }

  const cardAt = line => read[line - 1] ?? cards.UNTOLD;

  function redraw() {
    if (frame) return;
    frame = requestAnimationFrame(() => {
      frame = 0;
      draw();
    });
  }

  // Draws line numbers and marks of the lines that are seen, the ruler and the field.
  function draw() {
    const { line, column } = place();
    const { scrollTop, scrollLeft, clientHeight } = area;
    const first = Math.floor(scrollTop / HEIGHT), last = Math.min(lines.length - 1, Math.ceil((scrollTop + clientHeight) / HEIGHT));
    const gutter = [], layer = [];
    const put = (kind, row, from, to, more = {}) => {
      const element = make("div", { class: kind, ...more });
      element.style.top = `${row * HEIGHT - scrollTop}px`;
      if (from) element.style.left = `${PAD + (from - 1) * wide - scrollLeft}px`;
      if (to) element.style.width = `${(to - from + 1) * wide}px`;
      layer.push(element);
      return element;
    };
    const end = make("div", { class: "end" });
    end.style.left = `${PAD + 80 * wide - scrollLeft}px`;
    layer.push(end);
    const fields = cards.fieldsAt(cardAt(line), column);
    for (let row = first; row <= last; row++) {
      const own = marks.get(row + 1) ?? [];
      const worst = own.some(it => it.kind === "refused") ? "refused" : own.length ? "warned" : "";
      const label = make("div", { class: [worst, row + 1 === line ? "here" : ""].join(" "), textContent: row + 1 });
      label.style.top = `${row * HEIGHT - scrollTop}px`;
      gutter.push(label);
      if (row + 1 === line) {
        put("here", row);
        if (fields[0]) put("field", row, fields[0].from, fields[0].to);
      }
      for (const it of own) if (it.from) put(it.kind, row, it.from, it.to);
      if (own.length) {
        const text = own.map(it => it.text).join("; ");
        put(`said by-${worst}`, row, freeColumn(lines[row], Math.max(0, ...own.map(it => it.to || 0)), text), 0, { textContent: text });
      }
    }
    $("gutter").replaceChildren(...gutter);
    $("layer").replaceChildren(...layer);
    drawRuler(line, column, fields, scrollLeft);
  }

  // The first column behind these where a line has room for what is said of it.
  function freeColumn(line, behind, text) {
    const wanted = Math.ceil(text.length * 6.2 / wide) + 2;
    for (const gap of line.slice(behind).matchAll(/ {2,}/g)) if (gap[0].length >= wanted) return behind + gap.index + 2;
    return Math.max(line.length, behind) + 2;
  }

  const TENS = Array.from({ length: 8 }, (_, place) => String(place + 1).padStart(10)).join("");
  function drawRuler(line, column, fields, scrollLeft) {
    const card = cardAt(line), { kind, legend, section } = card;
    $("ruler-slide").style.transform = `translateX(${-scrollLeft}px)`;
    $("ruler-tens").textContent = TENS;
    $("ruler-ones").textContent = "1234567890".repeat(8);
    $("ruler-names").textContent = legend;
    const [it] = fields;
    $("ruler-field").style.left = `${((it?.from ?? 1) - 1) * wide}px`;
    $("ruler-field").style.width = `${it ? (it.to - it.from + 1) * wide : 0}px`;
    $("ruler-caret").style.left = `${(column - 1) * wide - 1}px`;
    const told = [make("span", { class: "place", textContent: `line ${line}, column ${column}${overwrites ? ", replacing" : ""}` })];
    if (kind) {
      const type = cards.typeName(card);
      told.push(make("span", { textContent: kind + (type ? ` (${type})` : "") }));
    }
    for (const it of fields) {
      const columns = it.from === it.to ? `column ${it.from}` : `columns ${it.from}-${it.to}`, value = cards.readAs(it, lines[line - 1]);
      const said = [cards.describe(card, it), value && `read as ${value}`].filter(Boolean).join("; ");
      told.push(make("span", {}, make("b", { textContent: it.name }), `, ${columns}${said ? ": " + said : ""}`));
    }
    if (cards.isComment(lines[line - 1] ?? "")) told.push(make("span", { class: "comment", textContent: commentAt(line - 1) }));
    if (section) {
      const button = make("button", { type: "button", textContent: "Manual", title: "The section of this card" });
      button.onclick = () => manual.show(section);
      told.push(button);
    }
    if (legend && !fields.length) told.push(make("span", { class: "place", textContent: column > 80
      ? "past column 80 only blanks may stand" : "no field reads this column" }));
    if ($("field").textContent !== told.map(it => it.textContent).join("")) $("field").replaceChildren(...told);
  }

  // The comment around a line, in one text: it is longer than the cards are wide.
  function commentAt(row) {
    let first = row, last = row;
    while (first > 0 && cards.isComment(lines[first - 1])) first--;
    while (last + 1 < lines.length && cards.isComment(lines[last + 1])) last++;
    return lines.slice(first, last + 1).map(line => line.slice(2).trim()).join(" ");
  }

  // Puts a text into columns of a line, blanks before it where the line is too short.
  function setColumns(line, from, to, value) {
    const begin = offset(line, 1), card = lines[line - 1], padded = card.padEnd(from - 1);
    const made = padded.slice(0, from - 1) + value.padEnd(to - from + 1) + padded.slice(to);
    replace(begin, begin + card.length, made.trimEnd() === "" ? made : made.trimEnd());
  }

  // Puts whole lines above a line, and the cursor into the last of them, which is to be this card.
  function insertLines(line, texts, card) {
    const at = offset(line, 1), last = line + texts.length - 1;
    area.focus();
    replace(at, at, texts.map(text => text + "\n").join(""));
    read[last - 1] = card;
    goto(last, 3);
  }

  // Names that begin as what stands before the cursor in a field of a name; the next one at each press.
  let completing = null;
  function complete() {
    const { line, column } = place(), field = cards.fieldsAt(cardAt(line), column).find(it => cards.isName(cardAt(line), it));
    if (!field) return;
    if (!completing || completing.line !== line || completing.from !== field.from || completing.text !== lines[line - 1]) {
      const start = lines[line - 1].slice(field.from - 1, field.to).trim();
      const names = results.names().filter(it => it.toUpperCase().startsWith(start.toUpperCase()) && it !== start);
      completing = { line, from: field.from, names, at: -1 };
    }
    if (!completing.names.length) return say("No name of this case begins so.");
    completing.at = (completing.at + 1) % completing.names.length;
    setColumns(line, field.from, field.to, completing.names[completing.at].slice(0, field.to - field.from + 1));
    goto(line, field.from + completing.names[completing.at].length);
    completing.text = lines[line - 1];
  }

  // Puts text in place of a part, so that it can be undone.
  function replace(from, to, value) {
    const focused = document.activeElement;
    if (focused !== area) area.focus({ preventScroll: true });
    area.setSelectionRange(from, to);
    if (!document.execCommand("insertText", false, value)) {
      area.setRangeText(value, from, to, "end");
      changed();
    }
    if (focused !== area && focused !== document.body) focused?.focus({ preventScroll: true });
  }

  // To the first column of the next field of the card, or of the one before; blanks are put where the line is too short.
  function nextField(back) {
    const { line, column } = place();
    const starts = cardAt(line).fields.filter(it => it.name).map(it => it.from);
    const target = back ? starts.filter(it => it < column).pop() : starts.find(it => it > column);
    if (target === undefined) return goto(back ? line - 1 || 1 : line + 1, 1);
    const lacks = target - 1 - lines[line - 1].length;
    if (lacks > 0) {
      const end = offset(line, lines[line - 1].length + 1);
      replace(end, end, " ".repeat(lacks));
    }
    return goto(line, target);
  }

  area.addEventListener("input", () => {
    changed();
    checking.soon();
    store.soon();
    results.aged();
  });
  // A comment that goes on beyond the pane is shown whole under the pointer.
  area.addEventListener("pointermove", event => {
    const row = Math.floor((event.clientY - area.getBoundingClientRect().top + area.scrollTop) / HEIGHT), line = lines[row] ?? "";
    const cut = cards.isComment(line) && PAD + line.length * wide - area.scrollLeft > area.clientWidth;
    const said = cut ? commentAt(row) : "";
    if (area.title !== said) area.title = said;
  });
  area.addEventListener("scroll", redraw);
  document.addEventListener("selectionchange", () => {
    if (document.activeElement !== area) return;
    redraw();
    results.follow(place().line);
    form.follow();
  });
  area.addEventListener("blur", () => { leaves = false; });
  area.addEventListener("keydown", event => {
    if (event.key === "Escape") leaves = true;
    else if (event.key === "Tab" && !leaves && !event.ctrlKey && !event.altKey && !event.metaKey) {
      event.preventDefault();
      nextField(event.shiftKey);
    } else if (event.key === " " && event.ctrlKey) {
      event.preventDefault();
      complete();
    } else if (event.key === "Insert" && !event.shiftKey && !event.ctrlKey) {
      overwrites = !overwrites;
      redraw();
    } else if (overwrites && event.key.length === 1 && !event.ctrlKey && !event.altKey && !event.metaKey) {
      const at = area.selectionStart;
      if (at === area.selectionEnd && at < area.value.length && area.value[at] !== "\n") area.setSelectionRange(at, at + 1);
    } else if (event.key !== "Shift") leaves = false;
  });
  new ResizeObserver(() => {
    measure();
    redraw();
  }).observe($("editor"));

  return {
    text, setText, goto, place, redraw, setColumns, insertLines,
    lines: () => lines,
    // Puts another text in place of this one, so that it can be undone.
    change(value) {
      area.focus();
      replace(0, area.value.length, value);
    },
    card: cardAt,
    line: line => lines[line - 1] ?? "",
    count: () => lines.length,
    setCards,
    setMarks(found) {
      marks = new Map();
      area.setAttribute("aria-invalid", String(found.some(it => it.kind === "refused")));
      for (const it of found) marks.set(it.line, [...(marks.get(it.line) ?? []), it]);
      redraw();
    },
  };
})();
