'use strict';
// `awaitWriteFinish`: a file is told when its size stayed for a time.

const fs = require('fs');
const { rowOf } = require('./stats');

class Finishing {
  /** @param {object} emitting sends the events */
  constructor(emitting) {
    this.emitting = emitting;
    this.options = emitting.options.awaitWriteFinish;
    this.pending = new Map();
  }

  /** Tells the event when the file is stable. A file that is awaited already is awaited longer. */
  await(event, name) {
    const before = this.pending.get(name);
    if (before) {
      before.changed = Date.now();
      return;
    }
    const one = { event, name, changed: Date.now(), size: undefined, timer: null };
    this.pending.set(name, one);
    this.later(one);
  }

  later(one) {
    one.timer = setTimeout(() => this.look(one), this.options.pollInterval);
  }

  look(one) {
    fs.stat(this.emitting.wholePath(one.name), (fault, stats) => {
      if (this.pending.get(one.name) !== one) return;
      if (fault) {
        // The server says that it went. Until then it is awaited, since a file may also take its place.
        this.later(one);
        return;
      }
      if (one.size !== undefined && one.size !== stats.size) one.changed = Date.now();
      one.size = stats.size;
      if (Date.now() - one.changed < this.options.stabilityThreshold) {
        this.later(one);
        return;
      }
      this.pending.delete(one.name);
      this.emitting.emit(one.event, one.name, rowOf(stats));
    });
  }

  /** Awaits a file no longer; gives the event that was awaited, if one was. */
  cancel(name) {
    const one = this.pending.get(name);
    if (!one) return undefined;
    clearTimeout(one.timer);
    this.pending.delete(name);
    return one.event;
  }

  close() {
    for (const one of this.pending.values()) clearTimeout(one.timer);
    this.pending.clear();
  }
}

module.exports = { Finishing };
