// ---- live: a case whose last run was short runs by itself, once its cards have rested

const live = (() => {
  const SHORT = 500, REST = 700; // ms
  let took = Infinity, timer = 0;
  const LIVE = ["run", "phasor", "scan"];

  return {
    // A command took so many ms.
    took(ms) { took = ms; },
    // The cards were read; `well` where none was refused.
    settled(well) {
      clearTimeout(timer);
      const wanted = () => $("live").checked && LIVE.includes($("what").value) && took < SHORT && results.isOld() && !running.done;
      if (!well || !wanted()) return;
      timer = setTimeout(() => { if (wanted()) run(true); }, REST);
    },
    stop() { clearTimeout(timer); },
  };
})();
