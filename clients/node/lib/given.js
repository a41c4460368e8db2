'use strict';
// A path or glob that a tool gave, and what is watched for it.

const fs = require('fs');
const path = require('path');
const { directoryMatcher, globMatcher, globParent, isGlob } = require('./globs');
const { realPath } = require('./link');
const { Lone } = require('./lone');

class Given {
  constructor(watcher, text) {
    this.watcher = watcher;
    this.text = text;
    this.isGlob = !watcher.options.disableGlobbing && isGlob(text);
    this.base = this.isGlob ? globParent(text) : text;
    this.inner = undefined;
    this.isInitial = true;
    this.isEnded = false;
  }

  /** Resolves when what is there was told, or it is known that no server tells it yet. */
  async begin() {
    const isThere = await isDirectory(this.base);
    if (this.isEnded) return;
    if (isThere || await this.isCovered()) await this.place(!isThere);
    else await this.lookAlone();
  }

  /** Whether a root of this watcher has the path, or one of the project may be made for it. */
  async isCovered() {
    if (this.isGlob) return false;
    const above = await realPath(path.dirname(path.resolve(this.base)));
    return Boolean(above) && this.watcher.feeds.covers(path.join(above, path.basename(this.base)));
  }

  async place(isPoint) {
    const whole = path.resolve(this.base);
    const above = isPoint && await realPath(path.dirname(whole));
    const real = above ? path.join(above, path.basename(whole)) : await realPath(whole);
    if (!real || this.isEnded) return;
    const { depth } = this.watcher.options;
    this.inner = await this.watcher.feeds.placeAt({
      shown: this.base, real, chain: [], isInitial: this.isInitial, isPoint,
      depth: depth === undefined ? Infinity : depth,
      glob: this.isGlob ? this.matchers() : undefined,
      text: this.isGlob ? this.text : undefined,
    });
    if (this.isEnded) this.inner.end(false);
    else await this.inner.begin();
  }

  matchers() {
    return { fits: globMatcher(this.text), mayHold: directoryMatcher(this.text, this.base) };
  }

  async lookAlone() {
    this.inner = new Lone(this.watcher, {
      shown: this.base, path: path.resolve(this.base), isInitial: this.isInitial,
      onDirectory: () => { this.place(false); },
    });
    await this.inner.begin();
    this.isInitial = false;
  }

  end() {
    this.isEnded = true;
    if (this.inner) this.inner.end(false);
  }
}

async function isDirectory(one) {
  try {
    return (await fs.promises.stat(one)).isDirectory();
  } catch {
    return false;
  }
}

module.exports = { Given };
