// ---- files

// Hands bytes over as a download.
function save(name, bytes, type = "application/octet-stream") {
  const url = URL.createObjectURL(new Blob([bytes], { type }));
  make("a", { href: url, download: name }).click();
  setTimeout(() => URL.revokeObjectURL(url), 30000);
}

// Saves the cards: into the file that they came from or were saved as, where the browser lets the page write to it.
async function saveCase(asAnother = false) {
  store.keep();
  const name = `${open.name.replace(/\.case$/, "")}.case`, bytes = bytesOf(editor.text());
  if (!window.showSaveFilePicker) return save(name, bytes);
  try {
    if (asAnother || !open.file) open.file = await window.showSaveFilePicker({ suggestedName: name,
      types: [{ description: "Cards", accept: { "text/plain": [".case"] } }] });
    const stream = await open.file.createWritable();
    await stream.write(bytes);
    await stream.close();
    say(`Saved: ${open.file.name}`);
  } catch (fault) {
    if (fault.name === "AbortError") return undefined;
    open.file = null;
    save(name, bytes);
  }
  return undefined;
}

// A copy of this page whose first case is this one.
function pageWithCase() {
  const own = JSON.stringify({ ...caseNow(), latin: open.latin, lineEnd: open.lineEnd }).replace(/</g, "\\u003c");
  const mark = '<script type="application/json" id="own">', at = SOURCE.indexOf(mark) + mark.length;
  return SOURCE.slice(0, at) + own + SOURCE.slice(SOURCE.indexOf("<", at));
}

// A text of a file; one that isn't UTF-8 is taken byte by byte.
function textOf(bytes) {
  let text, latin = false;
  try {
    text = new TextDecoder("utf-8", { fatal: true, ignoreBOM: true }).decode(bytes);
  } catch {
    text = Array.from(bytes, byte => String.fromCharCode(byte)).join("");
    latin = true;
  }
  const lineEnd = text.includes("\r\n") && !/(^|[^\r])\n/.test(text) ? "\r\n" : "\n";
  return { text: text.replace(/\r\n/g, "\n"), latin, lineEnd };
}

// Whether bytes are those of a text: none is of a control but tabs and ends of lines.
const isText = bytes => !bytes.some(byte => byte < 9 || byte > 13 && byte < 32 && byte !== 0x1a);

// Opens files: a case, a table of switch times, the files of a record. `handles` are those by which the page may write to them.
async function openFiles(list, handles = []) {
  const MOST = 70e6;
  const all = await Promise.all([...list].map(async (file, place) => {
    try {
      if (file.size > MOST) throw new Error("it has more than 70 MB");
      return { name: file.name, bytes: new Uint8Array(await file.arrayBuffer()), handle: handles[place] };
    } catch (fault) {
      say(`${file.name} can't be read: ${fault.message.replace(/\.$/, "")}.`, { stays: true });
      return null;
    }
  }));
  const found = all.filter(Boolean), ending = it => it.name.toLowerCase().replace(/.*\./, "");
  const cfg = found.find(it => ending(it) === "cfg"), dat = found.find(it => ending(it) === "dat"),
    cff = found.find(it => ending(it) === "cff");
  for (const it of found.filter(it => ![cfg, dat, cff].includes(it))) {
    if (!isText(it.bytes)) {
      say(`${it.name} is no text, so it is no case.`, { stays: true });
      continue;
    }
    const { text, latin, lineEnd } = textOf(it.bytes);
    if (/^\s*BEGIN NEW DATA CASE/m.test(text) || !/times|\.txt$/i.test(it.name)) {
      openOther({ name: it.name.replace(/\.[^.]*$/, "") || it.name, text, latin, lineEnd, file: it.handle });
    } else {
      $("times").value = text;
      setCommand("batch");
      store.soon();
      results.aged();
      say(`${it.name} is the table of switch times.`);
    }
  }
  if (cfg && !dat) say(`A record has two files: open ${cfg.name} and its dat together.`, { stays: true });
  if (dat && !cfg && found.length === 1) say(`A record has two files: open ${dat.name} and its cfg together.`, { stays: true });
  if (cff || cfg && dat) openRecord(cff ? { cfg: cff } : { cfg, dat });
}

function openRecord(given) {
  try {
    const parts = given.dat ? null : Records.sectionsOf(given.cfg.bytes);
    if (!given.dat && !parts) throw new Error("it has no sections of a cff");
    const parsed = Records.read(parts?.cfg ?? given.cfg.bytes, parts?.dat ?? given.dat.bytes);
    open.given = given;
    results.showGiven(parsed, given.cfg.name);
    tellAudited();
  } catch (fault) {
    open.given = null;
    say(`The record ${given.cfg.name} can't be drawn: ${fault.message}.`, { stays: true });
  }
}

async function chooseFiles() {
  if (!window.showOpenFilePicker) return $("file").click();
  try {
    const handles = await window.showOpenFilePicker({ multiple: true });
    await openFiles(await Promise.all(handles.map(it => it.getFile())), handles);
  } catch (fault) {
    if (fault.name !== "AbortError") $("file").click();
  }
  return undefined;
}
