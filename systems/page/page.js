// ---- what is pressed

$("command").onsubmit = event => {
  event.preventDefault();
  run();
};
$("stop").onclick = stop;
$("what").onchange = () => {
  commandChanged();
  results.aged();
};
$("times").oninput = () => {
  store.soon();
  results.aged();
};
$("vary-here").onclick = takeField;
$("scatter-make").onclick = writeTable;

// A list that is closed opens at an arrow, instead of opening one case after the other.
$("cases").onkeydown = event => {
  if (!["ArrowDown", "ArrowUp"].includes(event.key) || !$("cases").showPicker) return;
  event.preventDefault();
  try { $("cases").showPicker(); } catch { /* it opens by a press alone */ }
};
$("cases").onchange = () => {
  const [, kind, name] = /^(\w+) (.*)$/.exec($("cases").value);
  if (kind === "example") openExample(name, true);
  else if (kind === "kept") openKept(name);
};
$("new").onclick = () => {
  openCase({ name: freeName("new_case", store.all()), text: BLANK_CASE }, true);
  editor.goto(2, 1);
};
$("open").onclick = chooseFiles;
$("file").onchange = () => {
  openFiles([...$("file").files]);
  $("file").value = "";
};
$("save").onclick = () => saveCase();
const inMenu = (id, does) => {
  $(id).onclick = () => {
    $("more").open = false;
    does();
  };
};
inMenu("save-as", () => saveCase(true));
inMenu("rename", () => {
  $("name").value = open.name;
  $("name-box").showModal();
  $("name").select();
});
$("name-box").onclose = () => { if ($("name-box").returnValue === "yes") store.rename($("name").value); };
inMenu("duplicate", () => store.duplicate());
inMenu("forget", () => store.forget());
inMenu("whole-page", () => save(`${open.name}.html`, new TextEncoder().encode(pageWithCase()), "text/html"));
inMenu("link", async () => {
  const address = await link.make();
  const where = location.protocol === "file:"
    ? " It opens where this page lies at the same place of a disk; a copy of the page with the case in it (More) opens anywhere."
    : "";
  try {
    await navigator.clipboard.writeText(address);
    say(`The address is copied; it has the whole case in it.${where}`, { stays: Boolean(where) });
  } catch {
    Object.assign(open, { hash: new URL(address).hash, example: null });
    history.replaceState(null, "", address);
    say(`The address of this page has the whole case in it: copy it from the bar above.${where}`, { stays: true });
  }
});
$("help").onclick = () => $("help-box").showModal();
for (const menu of document.querySelectorAll("details.menu")) {
  menu.addEventListener("keydown", event => {
    if (event.key !== "Escape" || !menu.open) return;
    event.stopPropagation();
    menu.open = false;
    menu.firstElementChild.focus();
  });
}
addEventListener("pointerdown", event => {
  for (const menu of document.querySelectorAll("details.menu[open]")) if (!menu.contains(event.target)) menu.open = false;
});

document.addEventListener("keydown", event => {
  const control = event.ctrlKey || event.metaKey;
  if (control && event.key === "Enter") run();
  else if (control && event.key.toLowerCase() === "s") saveCase();
  else if (control && event.key.toLowerCase() === "o") chooseFiles();
  else if (event.key === "F1") $("help-box").showModal();
  else if (event.key === "F8") checking.next();
  else if (event.key === "Escape" && isRunning() && !$("help-box").open) stop();
  else if (event.key === "Escape" && worth.isJudging() && !$("help-box").open) worth.stop();
  else return;
  if (event.key !== "Escape") event.preventDefault();
});

// Cards and links that are pasted anywhere but into a box.
document.addEventListener("paste", event => {
  if (/^(textarea|input)$/i.test(event.target.tagName ?? "")) return;
  const text = event.clipboardData.getData("text"), hash = /#case=[\w-]+/.exec(text)?.[0];
  if (event.clipboardData.files.length) openFiles([...event.clipboardData.files]);
  else if (hash) link.follow(hash);
  else if (/^\s*BEGIN NEW DATA CASE/m.test(text)) openOther({ name: "pasted", text: text.replace(/\r\n/g, "\n"), base: { text: null } });
  else return;
  event.preventDefault();
});

let dragged = 0;
addEventListener("dragenter", event => {
  if (![...event.dataTransfer.types].includes("Files")) return;
  event.preventDefault();
  dragged++;
  document.body.classList.add("dropping");
});
addEventListener("dragleave", () => {
  dragged = Math.max(0, dragged - 1);
  if (!dragged) document.body.classList.remove("dropping");
});
addEventListener("dragover", event => event.preventDefault());
addEventListener("drop", async event => {
  dragged = 0;
  document.body.classList.remove("dropping");
  const files = [...event.dataTransfer.files];
  if (!files.length) return;
  event.preventDefault();
  // by the handle of a file the page may write to it later
  const items = [...event.dataTransfer.items].filter(it => it.kind === "file");
  const handles = await Promise.all(items.map(it => it.getAsFileSystemHandle?.().catch(() => null) ?? null));
  openFiles(files, handles.map(it => it?.kind === "file" ? it : undefined));
});
addEventListener("hashchange", () => { if (location.hash) link.follow(); });
addEventListener("beforeprint", () => { $("printed").textContent = `${plainName(open.name)}\n\n${editor.text()}`; });

// ---- the line between cards and results

const divider = (() => {
  const KEY = "emtp.left", line = $("divider"), left = $("left");
  const set = width => {
    const wide = Math.round(Math.min(innerWidth - 320, Math.max(240, width)));
    document.documentElement.style.setProperty("--left", `${wide}px`);
    line.setAttribute("aria-valuenow", wide);
    keepIn("localStorage", KEY, wide);
  };
  line.onpointerdown = event => line.setPointerCapture(event.pointerId);
  line.onpointermove = event => { if (line.hasPointerCapture(event.pointerId)) set(event.clientX); };
  line.ondblclick = () => {
    document.documentElement.style.removeProperty("--left");
    keepIn("localStorage", KEY, null);
  };
  line.onkeydown = event => {
    const by = { ArrowLeft: -20, ArrowRight: 20 }[event.key];
    if (by) set(left.clientWidth + by);
  };
  const before = kept("localStorage", KEY);
  if (before) set(before);
  line.setAttribute("aria-valuenow", left.clientWidth);
  line.setAttribute("aria-valuemin", 240);
  line.setAttribute("aria-valuemax", innerWidth - 320);
  return { set };
})();

// ---- the beginning

(async () => {
  $("about").textContent = $("foot").textContent = TABLES.about;
  $("foot").title = TABLES.about;
  try {
    await program.load();
  } catch (fault) {
    results.tellNote("bad", "", fault.message);
    return;
  }
  const own = $("own").textContent.trim(), last = kept("sessionStorage", store.LAST);
  if (location.hash && !(last?.kept && location.hash === `#kept=${encodeURIComponent(last.name)}`)) {
    if (await link.follow()) return;
  } else if (last && typeof last.text === "string" && (!last.kept || Object.hasOwn(store.all(), last.name))) {
    const example = EXAMPLES.find(it => it.name === last.example);
    if (example && example.text === last.text) openExample(example.name, true);
    else openCase(last, true);
    return;
  } else if (own) {
    openOther(JSON.parse(own));
    return;
  }
  openExample(EXAMPLES[0].name, true);
})();
