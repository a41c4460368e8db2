'use strict';
// One event for all that the server cannot do for a watcher.

// Faults of one moment are told together.
const MOMENT = 50;

class Faults {
  constructor(watcher) {
    this.watcher = watcher;
    this.found = new Map();
    this.told = new Set();
    this.timer = null;
  }

  /** Notes a fault, once for each text, and the root that it is of. */
  add(fault, root) {
    if (this.told.has(fault.message)) return;
    this.told.add(fault.message);
    this.found.set(fault.message, root);
    if (!this.timer) this.timer = setTimeout(() => this.tell(), MOMENT);
  }

  tell() {
    this.timer = null;
    if (this.watcher.closed) return;
    const paths = [...this.found.values()].filter((root) => root !== undefined);
    const text = `wqd-chokidar: ${[...this.found.keys()].join('; ')}`;
    const fault = Object.assign(new Error(text), { code: 'WQD', paths });
    this.found.clear();
    if (this.watcher.listenerCount('error') > 0) this.watcher.emit('error', fault);
    else process.emitWarning(fault.message);
  }

  close() {
    clearTimeout(this.timer);
  }
}

module.exports = { Faults };
