// ---- markdown: the manual's pages as blocks

const Markdown = (() => {
  // The pieces of a line: { text, kind: "", "code", "strong" or "link", to }.
  function inline(text) {
    const found = [];
    let at = 0;
    for (const it of text.matchAll(/`([^`]+)`|\*\*(.+?)\*\*|!?\[([^\]]*)\]\(([^)]*)\)/g)) {
      if (it.index > at) found.push({ kind: "", text: text.slice(at, it.index) });
      if (it[1] !== undefined) found.push({ kind: "code", text: it[1] });
      else if (it[2] !== undefined) found.push({ kind: "strong", text: it[2] });
      else if (!it[0].startsWith("!")) found.push({ kind: "link", text: it[3], to: it[4] });
      at = it.index + it[0].length;
    }
    if (at < text.length) found.push({ kind: "", text: text.slice(at) });
    return found;
  }

  const cells = line => line.trim().replace(/^\||\|$/g, "").split(/(?<!\\)\|/).map(it => it.trim().replace(/\\\|/g, "|"));

  // The blocks of a text: { kind: "heading" (level), "code", "table" (rows), "list" (items), "text", text }.
  function blocks(source) {
    const lines = source.split("\n"), found = [];
    let at = 0;
    const taken = is => {
      const from = at;
      while (at < lines.length && is(lines[at])) at++;
      return lines.slice(from, at);
    };
    while (at < lines.length) {
      const line = lines[at], heading = /^(#+) (.*)$/.exec(line);
      if (!line.trim()) at++;
      else if (heading) {
        found.push({ kind: "heading", level: heading[1].length, text: heading[2] });
        at++;
      } else if (line.startsWith("```")) {
        at++;
        found.push({ kind: "code", text: taken(it => !it.startsWith("```")).join("\n") });
        at++;
      } else if (line.startsWith("    ")) {
        found.push({ kind: "code", text: taken(it => it.startsWith("    ") || !it.trim() ).map(it => it.slice(4)).join("\n").trimEnd() });
      } else if (line.startsWith("|")) {
        const isRule = it => /^[|\s:-]+$/.test(it) && it.includes("-");
        found.push({ kind: "table", rows: taken(it => it.startsWith("|")).filter(it => !isRule(it)).map(cells) });
      } else if (/^(-|\d+\.) /.test(line)) {
        const items = [];
        for (const it of taken(it => /^(-|\d+\.) |^ {2,}\S/.test(it))) {
          if (/^(-|\d+\.) /.test(it)) items.push(it.replace(/^- /, ""));
          else items[items.length - 1] += " " + it.trim();
        }
        found.push({ kind: "list", items, numbered: /^\d/.test(line) });
      } else {
        const text = taken(it => it.trim() && !/^(#+ |```|\||- |\d+\. )/.test(it));
        found.push({ kind: "text", text: text.join(" ") });
      }
    }
    return found;
  }

  // The name of a heading in a link.
  const anchor = text => text.toLowerCase().replace(/[^\w\s-]/g, "").trim().replace(/\s+/g, "-");

  // A page in sections, one a heading of the first two levels: { page, title, text }.
  function sections(page, source) {
    const found = [];
    let inside = false;
    for (const line of source.split("\n")) {
      if (line.startsWith("```")) inside = !inside;
      const heading = !inside && /^##? (.*)$/.exec(line);
      if (heading) found.push({ page, title: heading[1], text: line });
      else if (found.length) found[found.length - 1].text += "\n" + line;
    }
    return found.map(it => ({ ...it, plain: it.text.toLowerCase() }));
  }

  // The sections that have all the words, those that have them in their title first.
  function matching(all, words) {
    const wanted = words.toLowerCase().split(/\s+/).filter(Boolean);
    if (!wanted.length) return all;
    const score = it => (wanted.every(word => it.title.toLowerCase().includes(word)) ? 1000 : 0)
      + wanted.reduce((sum, word) => sum + it.plain.split(word).length - 1, 0);
    return all.filter(it => wanted.every(word => it.plain.includes(word))).sort((a, b) => score(b) - score(a));
  }

  return { inline, blocks, anchor, sections, matching };
})();
