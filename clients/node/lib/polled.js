'use strict';
// What a feed sees while the server has no place for its root: this process looks at the files itself, as chokidar does
// by polling.

const fs = require('fs');
const path = require('path');
const { rowOf } = require('./stats');

// After a look it rests this number of times as long as the look took.
const REST = 4;
const polling = new Set();

class Polled {
  /**
   * @param {object} feed takes the files of each look, and says by `opens` which directories are needed
   * @param {Error} reason why the server has no place; said once, until it has one for all
   */
  constructor(feed, reason) {
    this.feed = feed;
    this.timer = null;
    this.isEnded = false;
    if (polling.size === 0) {
      process.emitWarning(`wqd-chokidar: ${reason.message}; this process looks at the files itself until it does`);
    }
    polling.add(this);
    this.look();
  }

  end() {
    this.isEnded = true;
    polling.delete(this);
    clearTimeout(this.timer);
  }

  async look() {
    const began = Date.now();
    const number = this.feed.ask();
    const files = await filesBelow(this.feed.root, this.feed.opens);
    if (this.isEnded) return;
    this.feed.takePolled(files, number);
    const pause = Math.max(this.feed.interval, REST * (Date.now() - began));
    // The session keeps the process alive, if somebody wants that.
    this.timer = setTimeout(() => this.look(), pause).unref();
  }
}

/** The files below a directory, as the server lists them, but for those in directories that are not needed. */
async function filesBelow(root, opens) {
  const found = [];
  const left = [''];
  while (left.length > 0) {
    const directory = left.pop();
    const names = await fs.promises.readdir(path.join(root, directory)).catch(() => []);
    const files = await Promise.all(names.map((name) => fileAt(root, directory ? `${directory}/${name}` : name)));
    for (const file of files) {
      if (!file) continue;
      found.push(file);
      if (file.type === 'd' && opens(file.name)) left.push(file.name);
    }
  }
  return found;
}

/** A file as the server lists it; nothing if it is gone. */
async function fileAt(root, name) {
  try {
    const row = rowOf(await fs.promises.lstat(path.join(root, name)));
    return { name, exists: true, type: row.kind, size: row.size, mtime_ms: row.mtimeMs };
  } catch {
    return undefined;
  }
}

module.exports = { Polled };
