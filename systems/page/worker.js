// ---- worker: makes the calls beside the page, which so stays awake

let compiled = null;

self.onmessage = ({ data }) => {
  if (data.module) {
    compiled = data.module;
    return;
  }
  let told;
  try {
    told = callModule(compiled, data.asked);
    if (told.cfg && told.dat && !data.asked.bare) told.record = Records.read(told.cfg, told.dat);
  } catch (fault) {
    told = { fault: fault instanceof RangeError || /memory|out of bounds/i.test(fault.message)
      ? "There wasn't enough memory." : String(fault) };
  }
  const buffers = [told.cfg, told.dat, told.note, told.summary].filter(Boolean).map(it => it.buffer);
  if (told.record) {
    buffers.push(told.record.times.buffer, ...told.record.channels.map(it => it.values.buffer),
      ...told.record.states.map(it => it.values.buffer));
  }
  self.postMessage({ id: data.id, ...told }, buffers);
};
