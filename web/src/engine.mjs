// The machine as the page sees it: promises over the worker, which is started again if it was stopped.

/** The bytes of a text in base 64. */
function bytesOf(text) {
  const raw = atob(text.trim());
  return Uint8Array.from({ length: raw.length }, (_, at) => raw.charCodeAt(at));
}

export class Engine {
  /** `source` is the worker's program, `module` the machine in base 64. */
  constructor(source, module) {
    this.address = URL.createObjectURL(new Blob([source], { type: "text/javascript" }));
    this.bytes = bytesOf(module);
    this.count = 0;
    this.ready = this.start();
  }

  /** Starts a worker; the promise has null, or why the machine can't be loaded. */
  start() {
    this.waiting = new Map();
    return new Promise(resolve => {
      try {
        this.worker = new Worker(this.address);
      } catch (fault) {
        return resolve(String(fault?.message ?? fault));
      }
      this.worker.onerror = event => resolve(event.message || "the worker stopped");
      this.worker.onmessage = ({ data }) => data.ready === undefined ? this.answer(data)
        : resolve(data.ready ? null : data.cause);
      this.worker.postMessage({ bytes: this.bytes });
    });
  }

  answer(data) {
    const waiting = this.waiting.get(data.id);
    if (!waiting) return;
    if (data.done === false) return waiting.piece?.(data);
    this.waiting.delete(data.id);
    if (data.failed) waiting.reject(new Error(data.failed));
    else waiting.resolve(data);
  }

  ask(kind, more, piece) {
    const id = ++this.count;
    return new Promise((resolve, reject) => {
      this.waiting.set(id, { resolve, reject, piece });
      this.ready.then(() => this.worker.postMessage({ id, kind, ...more }));
    });
  }

  /** Ends what runs, and starts a new worker. What waited is refused with the word `stopped`. */
  stop() {
    this.worker.terminate();
    const waiting = [...this.waiting.values()];
    this.ready = this.start();
    for (const { reject } of waiting) reject(new Error("stopped"));
  }

  inside(input, given = []) { return this.ask("inside", { input, given }); }
  run(given, input) { return this.ask("run", { input, given }); }
  sum(input, head) { return this.ask("sum", { input, head }); }
  version() { return this.ask("version", {}); }
  replay(lines, piece) { return this.ask("replay", { lines }, piece); }
}
