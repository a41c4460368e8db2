'use strict';
// A watcher with chokidar's API: it emits what its places tell.

const fs = require('fs');
const path = require('path');
const { EventEmitter } = require('events');
const { Emitting } = require('./emitting');
const { Faults } = require('./faults');
const { Feeds } = require('./feeds');
const { Given } = require('./given');
const { Ignoring } = require('./ignoring');
const { optionsOf } = require('./options');
const { absolute, unified } = require('./paths');

/** Emits `add addDir change unlink unlinkDir ready raw error all`. */
class FSWatcher extends EventEmitter {
  /** @param {object} [options] chokidar's */
  constructor(options) {
    super();
    this.options = optionsOf(options);
    this.closed = false;
    this.isReady = false;
    this.begin();
  }

  begin() {
    this.given = new Map();
    this.owners = new Map();
    this.waits = 0;
    this.ignoring = new Ignoring(this.options);
    this.emitting = new Emitting(this);
    this.faults = new Faults(this);
    this.feeds = new Feeds(this, fs.realpathSync(existing(path.resolve(this.options.cwd || ''))));
  }

  /**
   * Watches more files, directories and globs. A path that begins with `!` is left out.
   * @param {string|string[]} paths
   * @returns {FSWatcher} itself
   */
  add(paths) {
    if (this.closed) {
      this.closed = false;
      this.begin();
    }
    for (const text of unified(paths).map((one) => absolute(one, this.options.cwd))) {
      if (text.startsWith('!')) {
        this.ignoring.leaveOut(text.slice(1));
        continue;
      }
      this.ignoring.takeIn(text);
      this.ignoring.takeIn(path.resolve(text));
      if (this.given.has(text) || this.ignoring.has(text)) this.wait(Promise.resolve());
      else {
        const one = new Given(this, text);
        this.given.set(text, one);
        this.wait(one.begin());
      }
    }
    return this;
  }

  /**
   * Leaves paths out from now on, without an event.
   * @param {string|string[]} paths
   * @returns {FSWatcher} itself
   */
  unwatch(paths) {
    if (this.closed) return this;
    for (const text of unified(paths)) {
      const whole = path.resolve(this.options.cwd || '', text);
      for (const [key, one] of this.given) {
        if (key !== text && path.resolve(key) !== whole) continue;
        one.end();
        this.given.delete(key);
      }
      this.ignoring.leaveOut(whole);
      if (!path.isAbsolute(text) && !this.options.cwd) this.ignoring.leaveOut(text);
    }
    for (const one of this.given.values()) if (one.inner) one.inner.refresh();
    this.feeds.refresh();
    return this;
  }

  /**
   * What is watched.
   * @returns {Object<string, string[]>} of each directory the names in it; with `cwd` relative to that
   */
  getWatched() {
    const found = new Map();
    const inside = (directory) => {
      if (!found.has(directory)) found.set(directory, new Set());
      return found.get(directory);
    };
    for (const one of this.given.values()) {
      for (const entry of one.inner ? one.inner.shownEntries() : []) {
        const whole = path.resolve(entry.path);
        if (entry.isDirectory) inside(whole);
        if (whole !== '/') inside(path.dirname(whole)).add(path.basename(whole));
      }
    }
    const named = (directory) => (this.options.cwd ? path.relative(this.options.cwd, directory) || '.' : directory);
    return Object.fromEntries([...found].map(([directory, names]) => [named(directory), [...names].sort()]));
  }

  /**
   * Ends the watch, and forgets all listeners.
   * @returns {Promise<void>}
   */
  close() {
    if (this.closed) return this.ended;
    this.closed = true;
    this.removeAllListeners();
    for (const one of this.given.values()) one.end();
    this.feeds.close();
    this.emitting.close();
    this.faults.close();
    this.ended = Promise.resolve();
    return this.ended;
  }

  // What follows is for the parts of a watcher.

  /** `ready` comes when nothing is waited for any more. */
  wait(promise) {
    this.waits += 1;
    promise.catch((fault) => this.faults.add(fault)).then(() => {
      this.waits -= 1;
      if (this.waits > 0 || this.isReady || this.closed) return;
      this.isReady = true;
      process.nextTick(() => this.emit('ready'));
    });
  }

  /** A path has one place that tells it, if several have it. Whether it is this one. */
  claim(owner, shown) {
    const whole = path.resolve(shown);
    if (!this.owners.has(whole)) this.owners.set(whole, owner);
    return this.owners.get(whole) === owner;
  }

  forget(owner, shown) {
    const whole = path.resolve(shown);
    return this.owners.get(whole) === owner && this.owners.delete(whole);
  }

  tell(event, shown, row, isInitial) {
    if (this.closed || (isInitial && this.options.ignoreInitial)) return;
    this.emitting.tell(event, shown, row);
  }
}

function existing(directory) {
  return fs.existsSync(directory) ? directory : process.cwd();
}

module.exports = { FSWatcher };
