// ---- worth: what a run is worth, judged beside the page behind its result

// The lines of a judgment: { line, text, warns }, the warnings first. The first line, the note of the run, isn't of them.
function judgedLines(text) {
  const found = [...text.matchAll(/^(warning, )?line (\d+), (.*)$/gm)].map(it => ({ line: Number(it[2]), text: it[3], warns: Boolean(it[1]) }));
  return [...found.filter(it => it.warns), ...found.filter(it => !it.warns)];
}

const worth = (() => {
  const SAID = "Arresters, reactors or rounded branches may be off in this run";
  const caller = new Caller(), bar = $("worth"), tab = $("for-worth"), list = $("worth-lines");
  let clock = 0;

  const button = (textContent, press) => {
    const made = make("button", { type: "button", textContent });
    made.onclick = press;
    return made;
  };

  // What stands below the note: the sentence, what came of it, and what may be done about it.
  function tell(text, ...buttons) {
    bar.hidden = false;
    bar.replaceChildren(make("span", { textContent: `${SAID}${text}` }), ...buttons);
  }

  // What was judged is of another run. Where that one follows `byItself`, the tab that is seen stays.
  function forget(byItself = false) {
    clearInterval(clock);
    if (caller.done) caller.stop();
    const seen = tab.getAttribute("aria-selected") === "true";
    bar.hidden = true;
    tab.hidden = !(seen && byItself);
    bar.replaceChildren();
    list.replaceChildren();
    if (seen && !byItself) results.choose("for-plot");
  }

  const asked = (words, made) => caller.call({ judge: true, words: [...words, "case"], files: [inputOf("case", made.text)] });
  const printed = told => [told.note, told.summary].filter(Boolean).map(Records.text).join("");

  // Says of a run that has ended whether there is something to judge, and judges it then.
  async function of(made) {
    const told = await asked(["--count"], made);
    if (!told.fault && told.status === 0 && Number(printed(told)) > 0) judge(made);
    else forget();
  }

  async function judge(made) {
    const begun = performance.now(), took = () => `${((performance.now() - begun) / 1000).toFixed(1)} s`;
    const stop = () => {
      clearInterval(clock);
      caller.stop();
      tell(`; judging was stopped after ${took()}.`, button("Judge", () => judge(made)));
    };
    tell("; it is judged by how much.", button("Stop judging", stop));
    clock = setInterval(() => { bar.firstChild.textContent = `${SAID}; it is judged by how much, ${took()}`; }, 250);
    const told = await asked([], made);
    clearInterval(clock);
    if (told.fault || told.status !== 0) {
      tell(`; by how much couldn't be judged. ${told.fault ?? ""}`.trimEnd(), button("Judge", () => judge(made)));
      return;
    }
    show(judgedLines(printed(told)));
  }

  function show(lines) {
    const warnings = lines.filter(it => it.warns).length, counted = warnings === 1 ? "1 warning" : `${warnings || "no"} warnings`;
    tell(`: ${counted}.`, button("What it is worth", () => results.choose("for-worth", true)));
    tab.hidden = false;
    list.replaceChildren(...lines.map(it => {
      const link = button(`line ${it.line}`, () => editor.goto(it.line, 1));
      link.className = "to-line";
      return make("li", { class: it.warns ? "warned" : "" }, it.warns ? "warning, " : null, link, `, ${it.text}`);
    }));
  }

  $("worth-manual").onclick = () => manual.show("What a run is worth", "judge");

  return { of, forget, isJudging: () => Boolean(caller.done), stop: () => bar.querySelector("button")?.click() };
})();
