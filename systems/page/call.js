// ---- call: the words and files of a command, through the module

// Makes one call: { show, judge, words: [text], files: [{ name, bytes }], room }, and gives { status, cfg, dat, note, summary, ms,
// memory }, each output as bytes, or null where it wasn't created. Each call has an instance of its own, so that it begins with
// empty memory and leaves none.
function callModule(module, { show, judge, words, files, room }) {
  const MOST_ROOM = 1 << 27, WRITE_FAULT = 5;
  const encoder = new TextEncoder();
  const lines = texts => encoder.encode(texts.map(text => text + "\n").join(""));
  for (room = Math.min(MOST_ROOM, room || 1 << 22); ; room = Math.min(MOST_ROOM, 8 * room)) {
    const { memory, host_room, emtp_page_call, emtp_page_show, emtp_page_judge } = new WebAssembly.Instance(module).exports;
    const call = show ? emtp_page_show : judge ? emtp_page_judge : emtp_page_call;
    const take = count => {
      const place = host_room(BigInt(count));
      if (!Number(place)) throw new RangeError("memory is wanting");
      return place;
    };
    const put = bytes => {
      const place = take(bytes.length);
      new Uint8Array(memory.buffer).set(bytes, Number(place));
      return [place, BigInt(bytes.length)];
    };
    const given = [lines(words), lines(files.map(it => it.name)), ...[0, 1, 2].map(at => files[at]?.bytes ?? new Uint8Array())];
    const places = given.flatMap(put);
    const rooms = [0, 1, 2, 3].map(() => take(room));
    const answer = take(72);
    const begun = performance.now();
    call(...places, BigInt(room), ...rooms.flatMap(place => [place, BigInt(room)]), answer);
    const ms = performance.now() - begun;
    // the struct Answer: the status, and of each output whether it was created and its length
    const told = new DataView(memory.buffer, Number(answer), 72);
    const output = at => told.getUint8(8 + 16 * at)
      ? new Uint8Array(memory.buffer, Number(rooms[at]), Number(told.getBigUint64(16 + 16 * at, true))).slice()
      : null;
    const status = told.getUint32(0, true);
    if (status === WRITE_FAULT && room < MOST_ROOM) continue; // an output had no room: once more, with more
    return { status, cfg: output(0), dat: output(1), note: output(2), summary: output(3), ms, memory: memory.buffer.byteLength };
  }
}
