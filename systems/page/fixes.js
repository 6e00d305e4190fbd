// ---- fixes: what a refused card may have meant

// Each is a guess: the page offers it only where the program then reads the card.
const Fixes = (() => {
  // The texts that may mend a refusal { line, from, to }: [{ label, lines }]. `names` are those that the case has.
  function of(lines, { line, from, to }, names) {
    const card = lines[line - 1], found = [];
    if (card === undefined) return found;
    const put = (label, ...texts) => found.push({ label, lines: [...lines.slice(0, line - 1), ...texts, ...lines.slice(line)] });
    const field = from ? card.slice(from - 1, to) : "", word = field.trim();
    const known = names.find(it => it !== word && it.toUpperCase() === word.toUpperCase());
    if (known) put(`write ${known} for ${field.trim()}`, card.slice(0, from - 1) + known.padEnd(to - from + 1) + card.slice(to));
    if (from && field.trim()) {
      // the word that stands in the field may begin before it
      let start = from + field.search(/\S/);
      while (start > 1 && card[start - 2] !== " ") start--;
      for (const by of [1, 2, 3]) {
        const columns = `${by} column${by > 1 ? "s" : ""}`;
        if (card.slice(start - 1 - by, start - 1).trim() === "" && start - 1 >= by) {
          put(`move it ${columns} to the left`, card.slice(0, start - 1 - by) + card.slice(start - 1));
        }
        put(`move it ${columns} to the right`, card.slice(0, start - 1) + " ".repeat(by) + card.slice(start - 1));
      }
    }
    put("put BLANK above it", "BLANK", card);
    if (card !== card.toUpperCase()) put("write it in capital letters", card.toUpperCase());
    return found;
  }

  return { of };
})();
