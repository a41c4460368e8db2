'use strict';
// A single path that lies in no root: Node looks at it each interval, as chokidar does. It need not be there yet.

const fs = require('fs');
const { rowOf } = require('./stats');

class Lone {
  /**
   * @param {object} watcher
   * @param {{shown: string, path: string, isInitial: boolean, onDirectory: () => void}} given `path` is looked at, and
   *   events have `shown`; `onDirectory` is called if a directory is there
   */
  constructor(watcher, given) {
    this.shown = given.shown;
    this.path = given.path;
    this.isInitial = given.isInitial;
    this.onDirectory = given.onDirectory;
    this.watcher = watcher;
    this.row = undefined;
    this.isEnded = false;
    this.timer = null;
  }

  async begin() {
    await this.look();
    this.isInitial = false;
  }

  end(tells) {
    this.isEnded = true;
    clearTimeout(this.timer);
    if (this.row) this.watcher.forget(this, this.shown);
    if (this.row && tells) this.watcher.tell('unlink', this.shown);
    this.row = undefined;
  }

  async look() {
    const { followSymlinks, interval, persistent } = this.watcher.options;
    let row;
    try {
      row = rowOf(await (followSymlinks ? fs.promises.stat : fs.promises.lstat)(this.path));
    } catch {
      // It is not there, or cannot be looked at.
    }
    if (this.isEnded) return;
    this.timer = setTimeout(() => this.look(), interval);
    if (!persistent) this.timer.unref();
    this.compare(row);
  }

  compare(row) {
    const before = this.row;
    if (row && row.kind === 'd') {
      this.end(true);
      this.onDirectory();
      return;
    }
    this.row = row;
    if (!before && row) {
      if (this.watcher.claim(this, this.shown)) this.watcher.tell('add', this.shown, row, this.isInitial);
      else this.row = undefined;
    } else if (before && !row) {
      this.watcher.forget(this, this.shown);
      this.watcher.tell('unlink', this.shown);
    } else if (before && isOther(before, row)) {
      this.watcher.tell('change', this.shown, row);
    }
  }

  /** Each directory and what of this is in it, for `getWatched`. */
  * shownEntries() {
    if (this.row) yield { path: this.shown, isDirectory: false };
  }

  /** Leaves out what the watcher ignores from now on. */
  refresh() {
    if (this.row && this.watcher.ignoring.has(this.shown)) this.end(false);
  }
}

function isOther(before, row) {
  return before.size !== row.size || before.mtimeMs !== row.mtimeMs || before.stats.ino !== row.stats.ino;
}

module.exports = { Lone };
