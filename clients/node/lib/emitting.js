'use strict';
// How a change becomes an event, or none: `atomic`, `awaitWriteFinish`, `alwaysStat` and `cwd`, as chokidar has them.

const fs = require('fs');
const path = require('path');
const { Finishing } = require('./finishing');
const { statsOf } = require('./stats');
const { throwAlone } = require('./throwing');

const ATOMIC = 100;
const WITH_STATS = new Set(['add', 'addDir', 'change']);

class Emitting {
  /** @param {object} watcher emits the events */
  constructor(watcher) {
    this.watcher = watcher;
    this.options = watcher.options;
    this.unlinks = new Map();
    this.finishing = new Finishing(this);
    this.turn = Promise.resolve();
  }

  /** Tells a change of a path, whose stats are those of a row. */
  tell(event, shown, row) {
    const { cwd, atomic } = this.options;
    const name = cwd ? path.relative(cwd, shown) : shown;
    if (event === 'unlink') this.unlink(name);
    else if (event === 'add' && atomic && this.cancelUnlink(name)) this.finish('change', name, row);
    else if (event === 'add' || event === 'change') this.finish(event, name, row);
    else this.emit(event, name, row);
  }

  /** With `atomic` a file that goes may come back soon, as a change. */
  unlink(name) {
    if (this.finishing.cancel(name) === 'add') return;
    const { atomic } = this.options;
    if (!atomic) {
      this.emit('unlink', name);
      return;
    }
    clearTimeout(this.unlinks.get(name));
    this.unlinks.set(name, setTimeout(() => {
      this.unlinks.delete(name);
      this.emit('unlink', name);
    }, typeof atomic === 'number' ? atomic : ATOMIC));
  }

  cancelUnlink(name) {
    clearTimeout(this.unlinks.get(name));
    return this.unlinks.delete(name);
  }

  finish(event, name, row) {
    if (this.options.awaitWriteFinish && this.watcher.isReady) this.finishing.await(event, name);
    else this.emit(event, name, row);
  }

  wholePath(name) {
    return path.resolve(this.options.cwd || '', name);
  }

  emit(event, name, row) {
    const stats = row && WITH_STATS.has(event) ? statsOf(row) : undefined;
    if (!this.options.alwaysStat) this.send(event, name, stats);
    else this.emitInTurn(event, name, stats && !row.stats ? this.read(name) : stats);
  }

  /** With `alwaysStat` an event waits for its stats, and for the events before it. */
  emitInTurn(event, name, stats) {
    this.turn = this.turn.then(() => stats).then((found) => {
      // A file that went meanwhile has another event.
      if (found !== null) this.send(event, name, found);
    }).catch(throwAlone);
  }

  /** The stats of a file; null if it is not there. */
  read(name) {
    return fs.promises.stat(this.wholePath(name)).catch(() => null);
  }

  send(event, name, stats) {
    if (this.watcher.closed) return;
    const words = stats ? [name, stats] : [name];
    this.watcher.emit(event, ...words);
    this.watcher.emit('all', event, ...words);
  }

  close() {
    for (const timer of this.unlinks.values()) clearTimeout(timer);
    this.unlinks.clear();
    this.finishing.close();
  }
}

module.exports = { Emitting };
