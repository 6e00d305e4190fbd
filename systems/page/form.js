// ---- form: the fields of the card under the cursor as boxes, and cards by their kinds

const form = (() => {
  const box = $("form"), fields = $("form-fields"), insert = $("insert");
  let shown = "";

  const names = make("datalist", { id: "names" });
  document.body.append(names);

  function follow() {
    if (!box.open || fields.contains(document.activeElement)) return;
    const { line } = editor.place(), card = editor.card(line), text = editor.line(line);
    const key = `${line} ${card.legend} ${card.fields.map(it => it.from)} ${text}`;
    if (key === shown) return;
    shown = key;
    const all = card.fields.filter(it => it.name);
    names.replaceChildren(...results.names().map(value => make("option", { value })));
    fields.replaceChildren(...all.map(it => boxOf(card, it, line, text)));
    if (!all.length) fields.replaceChildren(make("p", { class: "hint", textContent: "The card under the cursor has no fields." }));
  }

  function boxOf(card, it, line, text) {
    const wide = it.to - it.from + 1, said = cards.describe(card, it);
    const input = make("input", { type: "text", value: text.slice(it.from - 1, it.to).trim(), maxLength: wide, size: wide,
      autocomplete: "off", spellcheck: false });
    if (cards.isName(card, it)) input.setAttribute("list", "names");
    // numbers stand at the right of their columns, names at the left
    const put = value => cards.isText(card, it) ? value.padEnd(wide) : value.padStart(wide);
    input.oninput = () => editor.setColumns(line, it.from, it.to, put(input.value));
    return make("label", { title: said }, it.name, input, make("small", { textContent: said }));
  }

  // A card of each kind with its ruler as a comment over it, at the line of the cursor.
  const named = ruler => ruler.replace(/ 1$/, "").replace(/ (\d)$/, ", card $1");
  const kinds = Object.keys(TABLES.cards).map(ruler => make("option", { value: ruler, textContent: named(ruler) }));
  insert.replaceChildren(make("option", { value: "", textContent: "a card…" }), ...kinds);
  insert.onchange = () => {
    const section = insert.value, { line } = editor.place();
    insert.value = "";
    if (!section) return;
    const { comment, words } = cards.rulerAbove(section), card = cards.awaited(section);
    editor.insertLines(line, [comment, words.padEnd(card.legend.length)], card);
  };

  box.ontoggle = () => {
    shown = "";
    follow();
  };

  return { follow };
})();
