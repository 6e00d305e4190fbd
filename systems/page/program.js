// ---- the program, in workers

const program = {
  module: null,
  async load() {
    const bytes = await through(new DecompressionStream("gzip"), bytesOfBase64($("module32").textContent));
    if (!WebAssembly.validate(bytes)) throw new Error("This browser doesn't take the program's module: it has no WebAssembly, or an old one.");
    program.module = await WebAssembly.compile(bytes);
  },
  url: null,
  start() {
    program.url ??= URL.createObjectURL(new Blob([$("worker").textContent], { type: "text/javascript" }));
    const worker = new Worker(program.url);
    worker.postMessage({ module: program.module });
    return worker;
  },
};

// A worker for calls of one kind: a call that is asked for later than another ends the older one.
class Caller {
  constructor() {
    this.worker = null;
    this.id = 0;
    this.done = null;
  }

  call(asked) {
    if (this.done) this.stop();
    if (!this.worker) {
      this.worker = program.start();
      this.worker.onmessage = ({ data }) => {
        if (data.id !== this.id || !this.done) return;
        const done = this.done;
        this.done = null;
        done(data);
      };
      this.worker.onerror = event => {
        event.preventDefault();
        this.done?.({ fault: event.message || "The worker ended." });
        this.stop();
      };
    }
    this.id++;
    return new Promise(done => {
      this.done = done;
      this.worker.postMessage({ id: this.id, asked });
    });
  }

  // Ends what is under way; its promise stays open.
  stop() {
    this.worker?.terminate();
    this.worker = this.done = null;
  }
}

// Makes many calls, in as many workers as there are processors; `took(result, place)` is called for each as it ends. `stop` ends all,
// and their promise says so.
class Callers {
  constructor() {
    this.workers = [];
  }

  async all(asked, took) {
    const found = [];
    let next = 0, stopped = false;
    const count = Math.min(asked.length, navigator.hardwareConcurrency || 2);
    this.workers = Array.from({ length: count }, () => new Caller());
    const ended = new Promise(done => { this.ends = () => { stopped = true; done(); }; });
    const work = async caller => {
      while (next < asked.length && !stopped) {
        const place = next++;
        found[place] = await caller.call(asked[place]());
        took?.(found[place], place);
      }
    };
    await Promise.race([Promise.all(this.workers.map(work)), ended]);
    for (const it of this.workers) it.stop();
    this.workers = [];
    return stopped ? null : found;
  }

  stop() {
    for (const it of this.workers) it.stop();
    this.ends?.();
  }
}
