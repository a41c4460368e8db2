'use strict';
// A place: a directory or file below a watched root, as a tool named it, and what of it was told.

const path = require('path');
const { Link } = require('./link');
const { nameBelow } = require('./names');
const { statsOf } = require('./stats');

const DIRECTORY = { kind: 'd', size: 0, mtimeMs: 0 };

class Place {
  /**
   * @param {object} watcher
   * @param {object} given `shown`: the path in events; `real`: it without links; `feed`; `glob`: functions `fits` and
   *   `mayHold`, if a glob was given; `depth`: how many slashes a name below may have; `chain`: the directories that
   *   links led through; `isInitial`; `isPoint`: a single path is meant
   */
  constructor(watcher, given) {
    this.feed = given.feed;
    this.shown = given.shown;
    this.real = given.real;
    this.chain = given.chain;
    this.isInitial = given.isInitial;
    this.isPoint = given.isPoint;
    this.depth = given.depth;
    this.glob = given.glob;
    this.text = given.text;
    this.watcher = watcher;
    this.below = nameBelow(this.feed.root, this.real);
    this.known = new Map();
    this.inside = new Map();
    this.cut = new Set();
    this.open = new Map();
    this.isEnded = false;
  }

  /** Resolves when what is there was told, or no server tells it yet. */
  async begin() {
    this.feed.join(this);
    const isListed = await this.feed.listedOnce();
    if (isListed) this.isInitial = false;
    else if (!this.isEnded) this.begin();
  }

  end(tells) {
    this.isEnded = true;
    this.feed.places.delete(this);
    for (const name of [...this.known.keys()].sort().reverse()) this.drop(name, tells);
  }

  /** The name of a row below this place; "" for the place itself, undefined for what is elsewhere. */
  nameOf(row) {
    if (this.below === '') return row;
    return row === this.below ? '' : nameBelow(this.below, row);
  }

  pathOf(name) {
    return name === '' ? this.shown : path.join(this.shown, name);
  }

  /** Takes changes of the root, and tells those that are of this place: what went before what came. */
  async take(changes, isThere) {
    const went = [];
    const came = [];
    const sort = (name, row) => {
      const before = this.known.get(name);
      const isWanted = row && this.wants(name, row);
      if (before && (!isWanted || !isOneKind(before.kind, row.kind))) went.push(name);
      if (isWanted) came.push([name, row]);
    };
    if (this.below === '') sort('', isThere ? DIRECTORY : undefined);
    for (const { name: row, after } of changes) {
      const name = this.nameOf(row);
      if (name !== undefined) sort(name, after);
    }
    for (const name of went.sort().reverse()) this.drop(name, true);
    for (const [name, row] of came.sort(byName)) await this.show(name, row);
  }

  wants(name, row) {
    if (name === '') return !this.watcher.ignoring.has(this.shown, statsOf(row));
    if (this.isPoint || slashes(name) > this.depth || !this.isOpen(parent(name))) return false;
    if (this.watcher.ignoring.has(this.pathOf(name), statsOf(row))) return false;
    return !this.glob || this.glob.fits(this.pathOf(name)) || (row.kind !== 'f' && this.glob.mayHold(name));
  }

  /** Whether what is in a directory of the root may be this place's. */
  opens(row) {
    const name = this.nameOf(row);
    if (name === undefined) return nameBelow(row, this.below) !== undefined;
    if (name === '') return !this.isPoint;
    return slashes(name) < this.depth && this.isOpen(name) && (!this.glob || this.glob.mayHold(name));
  }

  /** Whether neither a directory nor one above it is ignored. */
  isOpen(name) {
    if (name === '') return true;
    let found = this.open.get(name);
    if (found === undefined) {
      const row = this.feed.rows.get(this.below === '' ? name : `${this.below}/${name}`) || DIRECTORY;
      found = this.isOpen(parent(name)) && !this.watcher.ignoring.has(this.pathOf(name), statsOf(row));
      this.open.set(name, found);
    }
    return found;
  }

  async show(name, row) {
    const before = this.known.get(name);
    if (before) return this.update(name, before, row);
    const entry = { kind: row.kind, size: row.size, mtimeMs: row.mtimeMs, link: undefined };
    if (row.kind === 'l') {
      entry.link = new Link(this, name, row);
      if (!(await entry.link.begin()) || this.isEnded) return undefined;
    } else if (!this.watcher.claim(this, this.pathOf(name))) return undefined;
    this.note(name, entry);
    if (row.kind === 'd') this.showDirectory(name, row);
    else if (row.kind !== 'l') this.watcher.tell('add', this.pathOf(name), row, this.isInitial);
    return this.mend(name);
  }

  showDirectory(name, row) {
    if (this.isPoint) {
      // A single path became a directory: what is in it is needed too.
      this.isPoint = false;
      this.feed.subscribe();
    }
    const shown = this.pathOf(name);
    if (!this.glob || this.glob.fits(shown)) this.watcher.tell('addDir', shown, row, this.isInitial);
  }

  async update(name, before, row) {
    const isOther = before.size !== row.size || before.mtimeMs !== row.mtimeMs;
    if (!isOther || row.kind === 'd') return;
    Object.assign(before, { size: row.size, mtimeMs: row.mtimeMs });
    if (before.link) {
      if (await before.link.leadsElsewhere(row)) {
        this.drop(name, true);
        await this.show(name, row);
      }
    } else this.watcher.tell('change', this.pathOf(name), row);
  }

  note(name, entry) {
    this.known.set(name, entry);
    if (name === '') return;
    if (!this.inside.has(parent(name))) this.inside.set(parent(name), new Set());
    this.inside.get(parent(name)).add(name);
  }

  /** Forgets a name, after all that is below it, and tells that it went. */
  drop(name, tells) {
    const entry = this.known.get(name);
    if (!entry) return;
    for (const one of [...(this.inside.get(name) || [])].sort().reverse()) {
      this.cut.add(name);
      this.drop(one, tells);
    }
    this.known.delete(name);
    this.inside.delete(name);
    this.open.delete(name);
    if (name !== '' && this.inside.has(parent(name))) this.inside.get(parent(name)).delete(name);
    if (entry.link) {
      entry.link.end(tells);
      return;
    }
    this.watcher.forget(this, this.pathOf(name));
    if (!tells || this.watcher.ignoring.has(this.pathOf(name))) return;
    if (entry.kind !== 'd') this.watcher.tell('unlink', this.pathOf(name));
    else if (!this.glob || this.glob.fits(this.pathOf(name))) this.watcher.tell('unlinkDir', this.pathOf(name));
  }

  /** If a directory went alone and came back, the server says nothing of the files in it that stayed as they were. */
  async mend(name) {
    if (!this.cut.delete(name)) return;
    const rows = [...this.feed.rows].map(([row, value]) => [this.nameOf(row), value]);
    const below = rows.filter(([one]) => one && nameBelow(name, one) && !this.known.has(one));
    for (const [one, row] of below.sort(byName)) if (this.wants(one, row)) await this.show(one, row);
  }

  * shownEntries() {
    for (const [name, entry] of this.known) {
      if (!entry.link) yield { path: this.pathOf(name), isDirectory: entry.kind === 'd' };
      else yield* entry.link.shownEntries();
    }
  }

  /** Leaves out what the watcher ignores from now on, without a word, and shows what it ignores no longer. */
  refresh() {
    this.open.clear();
    for (const name of [...this.known.keys()].sort().reverse()) {
      if (this.watcher.ignoring.has(this.pathOf(name)) || !this.isOpen(parent(name))) this.drop(name, false);
    }
  }
}

function parent(name) {
  return name.includes('/') ? name.slice(0, name.lastIndexOf('/')) : '';
}

function slashes(name) {
  return name.split('/').length - 1;
}

/** Whether a file may take the place of another by a change: a directory or a link may not. */
function isOneKind(one, other) {
  return one === other || (!'dl'.includes(one) && !'dl'.includes(other));
}

function byName([one], [other]) {
  return one < other ? -1 : Number(one > other);
}

module.exports = { Place };
