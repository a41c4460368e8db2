'use strict';
// A symbolic link below a place. The server lists links and does not follow them, so this module does, as chokidar.

const fs = require('fs');
const path = require('path');
const { Lone } = require('./lone');

class Link {
  constructor(place, name, row) {
    this.place = place;
    this.name = name;
    this.row = row;
    this.shown = place.pathOf(name);
    this.path = path.join(place.real, name);
    this.target = undefined;
    this.inner = undefined;
    this.isEnded = false;
  }

  /** Shows what the link leads to; whether the link is to be kept in mind. */
  async begin() {
    const { watcher } = this.place;
    if (!watcher.options.followSymlinks) return this.showItself();
    const isDirectory = await leadsToDirectory(this.path);
    this.target = await realPath(this.path);
    if (this.isEnded) return false;
    if (isDirectory && this.target) return this.enter();
    this.inner = new Lone(watcher, {
      shown: this.shown, path: this.path, isInitial: this.place.isInitial, onDirectory: () => this.follow(),
    });
    await this.inner.begin();
    return true;
  }

  /** Without followSymlinks a link is a file of its own, wherever it leads. */
  showItself() {
    const { watcher } = this.place;
    if (!watcher.claim(this, this.shown)) return false;
    watcher.tell('add', this.shown, this.row, this.place.isInitial);
    return true;
  }

  /** Shows the files of the directory that the link leads to below the link, unless that has the link itself in it. */
  async enter() {
    const { watcher, chain, depth, glob, isInitial, real } = this.place;
    const from = await realPath(path.dirname(this.path)) || real;
    if (`${from}/`.startsWith(`${this.target}/`) || chain.includes(this.target)) return false;
    const left = depth - this.name.split('/').length;
    this.inner = await watcher.feeds.placeAt({
      shown: this.shown, real: this.target, chain: [...chain, real, this.target], isInitial,
      glob: glob && { fits: glob.fits, mayHold: () => true }, depth: left,
    });
    if (this.isEnded) this.inner.end(false);
    // The server's next list may tell this place, and it waits for nobody.
    else watcher.wait(this.inner.begin());
    return !this.isEnded;
  }

  async follow() {
    this.target = await realPath(this.path);
    if (!this.isEnded && this.target) await this.enter();
  }

  /** Whether the link leads elsewhere now. If it led to a file, a look at that says so. */
  async leadsElsewhere(row) {
    const { watcher } = this.place;
    if (!watcher.options.followSymlinks) {
      watcher.tell('change', this.shown, row);
      return false;
    }
    return !(this.inner instanceof Lone) && (await realPath(this.path)) !== this.target;
  }

  end(tells) {
    this.isEnded = true;
    const { watcher } = this.place;
    if (this.inner) this.inner.end(tells);
    else if (watcher.forget(this, this.shown) && tells) watcher.tell('unlink', this.shown);
  }

  * shownEntries() {
    if (this.inner) yield* this.inner.shownEntries();
    else yield { path: this.shown, isDirectory: false };
  }
}

async function leadsToDirectory(link) {
  try {
    return (await fs.promises.stat(link)).isDirectory();
  } catch {
    return false;
  }
}

async function realPath(link) {
  try {
    return await fs.promises.realpath(link);
  } catch {
    return undefined;
  }
}

module.exports = { Link, realPath };
