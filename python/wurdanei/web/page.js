// ---- page: the plot of a page that stands alone, its numbers packed

(() => {
  const drawing = JSON.parse(document.getElementById("drawing").textContent);
  const unpacked = (text, Kind) => new Kind(Uint8Array.from(atob(text), letter => letter.charCodeAt(0)).buffer);
  // an even grid is three numbers
  const xs = drawing.xs.map(it => typeof it === "string" ? unpacked(it, Float64Array)
    : Float64Array.from({ length: it.count }, (_, at) => it.first + at * it.step));
  for (const pane of drawing.picture.panes) {
    for (const it of [...pane.curves ?? pane.bars, ...pane.bands ?? []]) {
      it.x = xs[it.x];
      for (const name of ["y", "values", "low", "high"]) if (it[name]) it[name] = unpacked(it[name], Float32Array);
    }
  }
  const save = (name, bytes, type) => {
    const url = URL.createObjectURL(new Blob([bytes], { type }));
    make("a", { href: url, download: name }).click();
    setTimeout(() => URL.revokeObjectURL(url), 30000);
  };
  window.panel = new Panel(document.getElementById("panel"), { save, name: () => drawing.name });
  window.panel.show(drawing.picture);
})();
