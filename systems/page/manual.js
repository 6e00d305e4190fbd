// ---- manual: the pages of docs/ in the file, with a search

const manual = (() => {
  const box = $("tab-manual");
  const search = make("input", { id: "manual-search", type: "search", placeholder: "Search the manual",
    "aria-label": "Search the manual" });
  const list = make("ul", { id: "manual-list", "aria-label": "Sections" });
  const text = make("div", { id: "manual-text", tabIndex: 0, role: "region", "aria-label": "Section of the manual" });
  box.append(search, list, text);
  let sections = null, open = null;

  // Unpacks the pages, once they are wanted.
  async function load() {
    if (sections) return;
    const packed = $("manual").textContent.trim();
    const pages = packed ? JSON.parse(new TextDecoder().decode(await through(new DecompressionStream("gzip"), bytesOfBase64(packed)))) : [];
    sections = pages.flatMap(({ name, text }) => Markdown.sections(name, text));
  }

  function tellList() {
    const found = Markdown.matching(sections, search.value), items = [];
    let page = "";
    for (const it of found) {
      if (it.page !== page) {
        page = it.page;
        items.push(make("li", { class: "page", textContent: page }));
      }
      const button = make("button", { type: "button", textContent: it.title.replace(/`|\*\*/g, "") });
      button.onclick = () => tell(it);
      if (it === open) button.setAttribute("aria-current", "true");
      items.push(make("li", {}, button));
    }
    list.replaceChildren(...items.length ? items : [make("li", { textContent: "No section has all these words." })]);
    return found;
  }

  const pieces = (line, words) => Markdown.inline(line).map(it => {
    const inner = marked(it.text, words);
    if (it.kind === "code") return make("code", {}, ...inner);
    if (it.kind === "strong") return make("strong", {}, ...inner);
    const target = it.kind === "link" && targetOf(it.to);
    if (!target) return make("span", {}, ...inner);
    const button = make("a", { href: "#", textContent: it.text });
    button.onclick = event => {
      event.preventDefault();
      tell(target);
    };
    return button;
  });

  // The words that are looked for stand out.
  function marked(text, words) {
    if (!words.length) return [text];
    const parts = text.split(new RegExp(`(${words.map(it => it.replace(/[.*+?^${}()|[\]\\]/g, "\\$&")).join("|")})`, "i"));
    return parts.map((part, at) => at % 2 ? make("mark", { textContent: part }) : part);
  }

  // The section that a link of a page leads to; null where it isn't in the manual.
  function targetOf(to) {
    const [, page, anchor] = /^(?:.*\/)?([\w-]*)(?:\.md)?(?:#(.*))?$/.exec(to) ?? [];
    const own = sections.filter(it => it.page === (page || open?.page));
    return own.find(it => anchor && Markdown.anchor(it.title) === anchor) ?? own[0] ?? null;
  }

  function tell(it) {
    open = it;
    const words = search.value.trim().split(/\s+/).filter(Boolean);
    const parts = Markdown.blocks(it.text).map(block => {
      if (block.kind === "heading") return make(block.level < 3 ? "h2" : "h3", {}, ...pieces(block.text, words));
      if (block.kind === "code") return make("pre", { tabIndex: 0 }, ...marked(block.text, words));
      if (block.kind === "list") return make("ul", { class: block.numbered ? "numbered" : "" },
        ...block.items.map(item => make("li", {}, ...pieces(item, words))));
      if (block.kind === "table") return make("table", {},
        ...block.rows.map((row, at) => make("tr", {}, ...row.map(cell => make(at ? "td" : "th", {}, ...pieces(cell, words))))));
      return make("p", {}, ...pieces(block.text, words));
    });
    text.replaceChildren(...parts);
    text.scrollTop = 0;
    tellList();
  }

  search.oninput = () => {
    const found = tellList();
    if (search.value.trim() && found.length) tell(found[0]);
  };

  return {
    async begin() {
      await load();
      tellList();
      if (!open && sections.length) tell(sections[0]);
    },
    // The section of the card that a ruler is of, or of a title; of one that stands in several pages, the one of a page.
    async show(ruler, page) {
      await load();
      search.value = "";
      const title = ruler.replace(/ \d+$/, ""), found = sections.find(it => it.title === title && (!page || it.page === page));
      results.choose("for-manual", true);
      if (found) tell(found);
    },
  };
})();
