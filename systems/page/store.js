// ---- cases that are kept, in the browser's own store

const store = {
  KEY: "emtp.cases",
  LAST: `emtp.open ${location.pathname}`, // what is open in this tab: a reload opens it
  timer: 0,
  all() {
    return kept("localStorage", store.KEY) ?? {};
  },
  write(cases) {
    const done = keepIn("localStorage", store.KEY, cases);
    if (!done) say("This browser keeps no more: save the case as a file.", { stays: true });
    return done;
  },
  soon() {
    clearTimeout(store.timer);
    store.timer = setTimeout(store.keep, 600);
  },
  // Keeps the open case, unless it is as it came. One that wasn't kept gets a name that no other has.
  keep() {
    clearTimeout(store.timer);
    const now = caseNow();
    if (!open.kept && now.text === open.base.text && now.times === open.base.times) {
      store.remember();
      return;
    }
    const cases = store.all();
    if (!open.kept) open.name = freeName(open.example ? `${open.example}_changed` : open.name, cases);
    cases[open.name] = { ...now, name: open.name, latin: open.latin, lineEnd: open.lineEnd };
    if (!store.write(cases)) return;
    const first = !open.kept;
    Object.assign(open, { kept: true, example: null, hash: "" });
    if (first) named();
    store.remember();
  },
  remember() {
    const { example, kept: isKept, hash, base, latin, lineEnd } = open;
    keepIn("sessionStorage", store.LAST, { ...caseNow(), example, kept: isKept, hash, base, latin, lineEnd });
  },
  // Forgets the open case; it can be had back as long as that is offered.
  forget() {
    if (!open.kept) return say("This case isn't kept here, so there is nothing to forget.");
    store.keep();
    const cases = store.all(), name = open.name, was = cases[name];
    delete cases[name];
    store.write(cases);
    Object.assign(open, { kept: false, base: { text: editor.text(), times: $("times").value } });
    openExample(EXAMPLES[0].name, true);
    return say(`${plainName(name)} is forgotten.`, { action: ["Undo", () => {
      store.keep();
      const now = store.all(), free = freeName(name, now);
      store.write({ ...now, [free]: { ...was, name: free } });
      openKept(free);
    }] });
  },
  rename(name) {
    name = name.trim();
    if (!name || name === open.name) return;
    store.keep();
    const cases = store.all(), free = freeName(name, cases);
    if (open.kept) delete cases[open.name];
    cases[free] = { ...caseNow(), name: free, latin: open.latin, lineEnd: open.lineEnd };
    if (!store.write(cases)) return;
    Object.assign(open, { name: free, kept: true, example: null, hash: "" });
    named();
    store.remember();
    if (free !== name) say(`${name} is the name of another case, so this one is ${free}.`);
  },
  duplicate() {
    store.keep();
    const cases = store.all(), name = freeName(`${open.name}_copy`, cases);
    if (!store.write({ ...cases, [name]: { ...caseNow(), name, latin: open.latin, lineEnd: open.lineEnd } })) return;
    openKept(name);
  },
};

// A name that no kept case has: this one, or this one with a number behind it.
function freeName(name, cases) {
  let found = name;
  for (let count = 2; Object.hasOwn(cases, found); count++) found = `${name}_${count}`;
  return found;
}

// What another tab kept under the name of the open case isn't written over.
addEventListener("storage", event => {
  if (event.key !== store.KEY || !open.kept) return;
  const other = store.all()[open.name];
  if (other && other.text !== editor.text()) Object.assign(open, { kept: false, base: { text: null } });
  listCases();
});
addEventListener("pagehide", () => store.keep());
document.addEventListener("visibilitychange", () => { if (document.hidden) store.keep(); });

// The list of examples and kept cases.
function listCases() {
  const group = (label, items, kind) => items.length
    ? make("optgroup", { label }, ...items.map(it => make("option", { value: `${kind} ${it.name}`,
      textContent: plainName(it.name), title: it.about ?? "" })))
    : null;
  const cases = Object.keys(store.all()).sort().map(name => ({ name })), groups = new Set(EXAMPLES.map(it => it.group));
  const parts = [group("Kept here", cases, "kept"),
    ...[...groups].map(label => group(label, EXAMPLES.filter(it => it.group === label), "example"))];
  const here = `${open.example ? "example" : open.kept ? "kept" : "open"} ${open.name}`;
  if (!open.example && !open.kept) parts.unshift(group("Open", [open], "open"));
  $("cases").replaceChildren(...parts.filter(Boolean));
  $("cases").value = here;
  $("forget").disabled = !open.kept;
}

function openExample(name, runs) {
  const it = EXAMPLES.find(it => it.name === name);
  if (!it) return false;
  const given = it.cfg && { cfg: { name: `${name}.cfg`, bytes: new TextEncoder().encode(it.cfg) },
    dat: { name: `${name}.dat`, bytes: new TextEncoder().encode(it.dat) } };
  openCase({ ...it, example: name, given }, runs);
  return true;
}

function openKept(name) {
  if (open.kept) store.keep();
  const cases = store.all();
  if (!Object.hasOwn(cases, name)) return false;
  openCase({ ...cases[name], name, kept: true }, true);
  return true;
}

// A case that came from elsewhere, under its name; where another text is kept under that, under a name of its own.
function openOther(it) {
  store.keep();
  const cases = store.all(), text = it.text.replace(/\r\n/g, "\n");
  const isKept = cases[it.name]?.text === text && (cases[it.name].times ?? "") === (it.times ?? "");
  if (isKept) return openCase({ ...it, kept: true, hash: "" }, true);
  const name = freeName(it.name, cases);
  openCase({ ...it, name }, true);
  if (name !== it.name) say(`Another case is kept as ${it.name}, so this one is ${name}.`);
  return undefined;
}

// ---- links: #name of an example, #kept=name of a kept case, #case=.. a whole case

const link = {
  async make() {
    const packed = await through(new CompressionStream("deflate-raw"), new TextEncoder().encode(JSON.stringify(caseNow())));
    const text = btoa(Array.from(packed, byte => String.fromCharCode(byte)).join(""));
    return location.href.split("#")[0] + "#case=" + text.replace(/\+/g, "-").replace(/\//g, "_").replace(/=+$/, "");
  },
  async read(packed) {
    const bytes = bytesOfBase64(packed.replace(/-/g, "+").replace(/_/g, "/"));
    const it = JSON.parse(new TextDecoder().decode(await through(new DecompressionStream("deflate-raw"), bytes)));
    if (typeof it.text !== "string" || typeof it.name !== "string") throw new Error("no case");
    return it;
  },
  // Opens what an address names; false where it names nothing, which is said.
  async follow(hash = location.hash) {
    if (hash.startsWith("#case=")) {
      try {
        openOther({ ...await link.read(hash.slice(6)), hash });
        return true;
      } catch {
        say("The address has no case in it, or only a part of one.", { stays: true });
        return false;
      }
    }
    let name = hash.slice(1);
    try { name = decodeURIComponent(name); } catch { /* it is no name then */ }
    const found = name.startsWith("kept=") ? openKept(name.slice(5)) : openExample(name, true);
    if (!found) say(`This page has no example and keeps no case of the name ${name.replace(/^kept=/, "")}.`, { stays: true });
    return found;
  },
};
