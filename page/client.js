// The worker of the page, as calls that return promises. A worker whose module stopped is ended, and another one
// takes its place.

export class Client {
  // `load` is what a new worker is told first.
  constructor(load) {
    this.load = load;
    this.waiting = new Map();
    this.number = 0;
    this.loaded = this.start();
  }

  start() {
    this.worker = new Worker("worker.js", { type: "module" });
    this.worker.onmessage = ({ data }) => this.reply(data);
    this.worker.onerror = (event) => this.lose(event.message || "the worker does not start");
    return this.send({ work: "load", ...this.load });
  }

  send(message) {
    this.number += 1;
    const sent = new Promise((resolve, reject) => this.waiting.set(this.number, { resolve, reject }));
    this.worker.postMessage({ ...message, number: this.number });
    return sent;
  }

  reply({ number, found, error, is_lost }) {
    const { resolve, reject } = this.waiting.get(number);
    this.waiting.delete(number);
    if (error === undefined) resolve(found);
    else reject(new Error(error));
    if (is_lost) this.lose("the program was started again");
  }

  // Ends the worker. What waits for it gets the cause, and the next call goes to a new worker.
  lose(cause) {
    this.worker.terminate();
    this.waiting.forEach(({ reject }) => reject(new Error(cause)));
    this.waiting.clear();
    this.loaded = undefined;
  }

  async call(work, given) {
    this.loaded ??= this.start();
    await this.loaded;
    return this.send({ work, ...given });
  }
}
