'use strict';
// The tree as the events of a library draw it, and what is wrong with them.

const path = require('path');
const { walked } = require('./history');

class Picture {
  constructor(watcher, history, kind, cwd) {
    this.watcher = watcher;
    this.history = history;
    this.kind = kind;
    this.cwd = cwd;
    this.files = new Map();
    this.last = new Map();
    this.faults = [];
    this.ready = new Promise((resolve) => { watcher.on('ready', resolve); });
    for (const event of ['add', 'addDir', 'change', 'unlink', 'unlinkDir']) {
      watcher.on(event, (name) => this.take(event, this.nameOf(name)));
    }
    watcher.on('error', (fault) => this.faults.push(`error: ${fault.message}`));
  }

  nameOf(name) {
    return path.relative(this.history.root, path.resolve(this.cwd || '/', name));
  }

  take(event, name) {
    this.last.set(name, Date.now());
    const isThere = this.files.has(name);
    const wasThere = this.history.existed.has(name) || this.existsNow(name);
    if (!wasThere) this.faults.push(`${event} of ${name}, which was never there`);
    const needsIt = event.startsWith('unlink') || event === 'change';
    if (needsIt !== isThere) this.faults.push(`${event} of ${name} twice`);
    if (event.startsWith('unlink')) this.files.delete(name);
    else if (event !== 'change') this.files.set(name, event === 'addDir' ? 'directory' : 'file');
  }

  existsNow(name) {
    this.history.note();
    return this.history.existed.has(name);
  }

  /** Without events of the beginning the picture begins with what is there. */
  begin() {
    if (this.kind.options && this.kind.options.ignoreInitial) this.files = this.wanted();
  }

  /** The events that the tree as it is should have. */
  wanted() {
    const all = walked(this.history.root, this.kind.follows !== false);
    return new Map([...all].filter(([name, is]) => this.kind.wants(name, is === 'directory')));
  }

  /** How the picture differs from the tree. */
  differences() {
    const wanted = this.wanted();
    const found = [];
    for (const [name, is] of wanted) {
      const told = this.files.get(name);
      if (told !== is) found.push(`${name || '.'} is a ${is}, and was told as ${told}`);
    }
    for (const name of this.files.keys()) {
      if (!wanted.has(name)) found.push(`${name || '.'} is not there, and was told`);
    }
    return found;
  }

  /** Files that were written last after all that was told of them. */
  untold(since) {
    const found = [];
    for (const [name, is] of this.wanted()) {
      const written = this.history.written.get(path.join(this.history.root, name)) || 0;
      const told = this.last.get(name) || 0;
      if (is === 'file' && written > since && told < written) found.push(`no event of ${name} after its last write`);
    }
    return found;
  }

  isRight(since) {
    return this.differences().length === 0 && this.untold(since).length === 0;
  }
}

module.exports = { Picture };
