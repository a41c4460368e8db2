'use strict';
// fs.watchFile over the server, for tools that have chokidar in a bundle of their own, such as vite: by polling it asks
// for each file and each directory so.

const fs = require('fs');
const path = require('path');
const { EventEmitter } = require('events');

const no = () => false;
const GONE = { size: 0, mtimeMs: 0, mtime: new Date(0), nlink: 0, isDirectory: no, isFile: no, isSymbolicLink: no };

/** One path: emits `change` with its stats now and before. */
class Watched extends EventEmitter {
  constructor(name, source) {
    super();
    this.setMaxListeners(0);
    this.name = name;
    this.stats = undefined;
    this.leaves = [];
    this.isEnded = false;
    this.begin(source);
  }

  begin(source) {
    const changed = () => this.look();
    const listener = { begun: changed, went: changed, failed: () => this.emit('failed') };
    const [above, base] = [path.dirname(this.name), path.basename(this.name)];
    const join = (directory, concerns) => {
      const changedIn = (name, comesOrGoes) => concerns(name, comesOrGoes) && this.look();
      this.leaves.push(source.join(directory, { ...listener, changed: changedIn }));
    };
    if (source.covers(above)) join(above, (name) => name === base);
    fs.stat(this.name, (fault, stats) => {
      if (!this.isEnded && !fault && stats.isDirectory()) join(this.name, (_, comesOrGoes) => comesOrGoes);
    });
  }

  look() {
    fs.stat(this.name, (fault, stats) => {
      if (this.isEnded) return;
      const before = this.stats;
      this.stats = fault ? GONE : stats;
      if (before && isOther(before, this.stats)) this.emit('change', this.stats, before);
    });
  }

  end() {
    this.isEnded = true;
    for (const leave of this.leaves) leave();
    this.removeAllListeners();
  }

  ref() { return this; }

  unref() { return this; }
}

function isOther(one, other) {
  return one.size !== other.size || one.mtimeMs !== other.mtimeMs || one.nlink !== other.nlink || one.ino !== other.ino;
}

/**
 * Puts functions over the server in the place of `fs.watchFile` and `fs.unwatchFile`. A path that the server cannot
 * tell of goes to the functions that were there.
 * @param {import('./source').Source} source
 */
function patchWatchFile(source) {
  const { watchFile, unwatchFile } = fs;
  const watched = new Map();
  fs.watchFile = (name, ...rest) => {
    const whole = path.resolve(String(name));
    const listener = rest[rest.length - 1];
    const isCovered = source.covers(path.dirname(whole)) || source.covers(whole);
    if (!isCovered || (rest.length > 1 && rest[0] && rest[0].bigint)) return watchFile(name, ...rest);
    const found = watched.get(whole) || new Watched(whole, source);
    watched.set(whole, found);
    found.on('change', listener);
    found.once('failed', () => {
      watched.delete(whole);
      found.end();
      watchFile(name, ...rest);
    });
    return found;
  };
  fs.unwatchFile = (name, listener) => {
    const whole = path.resolve(String(name));
    const found = watched.get(whole);
    unwatchFile(name, listener);
    if (!found) return;
    if (listener) found.removeListener('change', listener);
    if (listener && found.listenerCount('change') > 0) return;
    found.end();
    watched.delete(whole);
  };
}

module.exports = { patchWatchFile };
