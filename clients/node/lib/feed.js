'use strict';
// A feed: one subscription of a watched root, and the files of its lists. It lasts over restarts of the server, and
// over a root that goes and comes back.

const fs = require('fs');
const { Haste } = require('./haste');
const hub = require('./hub');
const { staysBelow } = require('./names');
const { Polled } = require('./polled');
const { Rows, isOther } = require('./rows');
const { throwAlone } = require('./throwing');
const { giveBack, watch } = require('./watches');

const FIELDS = ['name', 'exists', 'type', 'size', 'mtime_ms'];
// How soon a root that went is noticed, in milliseconds: the server keeps the last view of one.
const LOOK = 500;
// After so many looks a root that the server refused is tried again. For one with too many files, all of which the
// server looks at before it refuses, they are doubled each time, to at most so many.
const LOOKS = 10;
const MOST_LOOKS = 120;
const PATIENCE = 600_000;
// The server says these of itself, and not of a root.
const OF_SERVER = /^(ended|E17|E60)/;
// The root has too many files, or there are too many roots.
const TOO_LARGE = /^E12/;
const NO_PLACE = /^E1[23]/;

class Feed {
  /**
   * @param {string} root an absolute path without links
   * @param {boolean} keeps whether it keeps the process alive
   * @param {any} uses `expression()` is what the places of this feed need; `tell(changes, isThere)` takes changes,
   *   one call after the other; `fail(fault)` takes the reason if nobody watches the root. While the server has no
   *   place for it, this process looks each `interval` ms at what is in the directories that `opens(name)` names
   */
  constructor(root, keeps, uses) {
    this.root = root;
    this.keeps = keeps;
    this.interval = uses.interval;
    this.opens = uses.opens;
    this.expression = uses.expression;
    this.tell = uses.tell;
    this.fail = uses.fail;
    this.name = hub.newName();
    this.rows = new Rows();
    this.places = new Set();
    this.isGone = false;
    this.isRefused = false;
    this.polled = null;
    this.looks = 0;
    this.looksUntilNext = LOOKS;
    this.turn = 0;
    this.asked = 0;
    this.listed = 0;
    this.waiting = [];
    this.work = Promise.resolve();
    this.haste = new Haste(this);
    this.session = hub.acquire(keeps);
    this.session.lists.set(this.name, this);
    this.isBegun = false;
    this.isClosed = false;
    this.onUp = () => this.begin();
    this.onFault = (fault) => this.poll(fault);
    this.session.on('up', this.onUp);
    this.session.on('fault', this.onFault);
    this.timer = setTimeout(() => this.look(), LOOK).unref();
    if (this.session.isUp()) this.begin();
  }

  close() {
    this.isClosed = true;
    clearTimeout(this.timer);
    this.haste.end();
    this.endPolling();
    this.session.removeListener('up', this.onUp);
    this.session.removeListener('fault', this.onFault);
    this.session.lists.delete(this.name);
    for (const each of this.waiting.splice(0)) each.resolve(false);
    this.session.ask('unsubscribe', this.root, this.name)
      .then(() => giveBack(this.session, this.root))
      .finally(() => hub.release(this.session, this.keeps));
  }

  /** Takes a place in, before the others: what several have is the newest one's to tell. */
  join(place) {
    this.places = new Set([place, ...this.places]);
  }

  /** Watches the root, as it is now, and subscribes. */
  async begin() {
    this.turn += 1;
    const turn = this.turn;
    this.isBegun = false;
    this.isRefused = false;
    this.asked = this.listed;
    for (const each of this.waiting) each.number = this.listed + 1;
    let reply = await this.watched();
    if (this.isClosed || this.turn !== turn) return;
    if (!reply.error && this.polled) {
      // What this process saw after that scan would go and come again.
      this.endPolling();
      reply = await this.haste.scan(() => this.scanned());
      if (this.isClosed || this.turn !== turn) return;
    }
    if (!reply.error) {
      this.isBegun = true;
      this.looksUntilNext = LOOKS;
      this.subscribe();
    } else if (reply.error.startsWith('E11') && !fs.existsSync(this.root)) {
      this.leave();
      this.settle(Infinity);
    } else {
      this.isRefused = true;
      if (OF_SERVER.test(reply.error)) return;
      if (TOO_LARGE.test(reply.error)) this.looksUntilNext = Math.min(2 * this.looksUntilNext, MOST_LOOKS);
      const fault = new Error(`wqd does not watch ${this.root}: ${reply.error}`);
      if (NO_PLACE.test(reply.error)) this.poll(fault);
      else this.giveUp(fault);
    }
  }

  giveUp(fault) {
    this.fail(fault);
    this.settle(Infinity);
  }

  /** Without a place at the server this process looks itself. */
  poll(reason) {
    if (!this.polled && !this.isClosed) this.polled = new Polled(this, reason);
  }

  endPolling() {
    if (this.polled) this.polled.end();
    this.polled = null;
  }

  /** The number of a list that is asked for now. */
  ask() {
    this.asked += 1;
    return this.asked;
  }

  /** Takes the files of a look, whose list was asked for by this number. */
  takePolled(files, number) {
    const changes = this.rows.replace(this.isGone ? [] : files);
    const isAwaited = this.waiting.some((each) => each.number <= number);
    this.queue(isAwaited ? changes : changes.filter(isOther));
    this.listed = number;
    this.settle(number);
  }

  async watched() {
    let isNew = false;
    const reply = await this.haste.scan(async () => {
      const found = await watch(this.session, this.root);
      ({ isNew } = found);
      return found;
    });
    // What is watched already may have been scanned long ago.
    return reply.error || isNew ? reply : this.haste.scan(() => this.scanned());
  }

  /** Has the server scan the root now. */
  scanned() {
    return this.session.ask('clock', this.root, { sync_timeout: PATIENCE });
  }

  /** Subscribes with the expression of now, after the places that are added in this moment. */
  subscribe() {
    if (this.isAsking || !this.isBegun || this.places.size === 0) return;
    this.isAsking = true;
    setImmediate(async () => {
      this.isAsking = false;
      if (this.isClosed || !this.isBegun) return;
      this.ask();
      const query = { fields: FIELDS, expression: this.expression() };
      const reply = await this.session.ask('subscribe', this.root, this.name, query);
      if (!reply.error || OF_SERVER.test(reply.error)) return;
      this.asked -= 1;
      this.giveUp(new Error(`wqd does not tell changes below ${this.root}: ${reply.error}`));
    });
  }

  /** Resolves to true when a list that knows of all places of now was told, and to false if none comes yet. */
  listedOnce() {
    return new Promise((resolve) => {
      this.waiting.push({ number: this.asked + 1, resolve });
      this.subscribe();
    });
  }

  settle(number) {
    const done = this.waiting.filter((each) => each.number <= number);
    this.waiting = this.waiting.filter((each) => each.number > number);
    for (const each of done) this.work = this.work.then(() => each.resolve(number !== Infinity));
  }

  take(list) {
    if (this.isClosed) return;
    if (list.canceled) {
      this.begin();
      return;
    }
    const files = list.files.filter((file) => staysBelow(file.name));
    if (list.is_fresh_instance) {
      // Of a root that went the server has the last view.
      this.queue(this.rows.replace(this.isGone ? [] : files));
      this.listed += 1;
      this.settle(this.listed);
    } else if (!this.isGone) {
      this.queue(files.map((file) => this.rows.put(file)));
    }
  }

  queue(changes) {
    const isThere = !this.isGone;
    this.work = this.work.then(() => (this.isClosed ? undefined : this.tell(changes, isThere))).catch(throwAlone);
  }

  /** Looks whether the root is there. */
  look() {
    fs.stat(this.root, (fault) => {
      if (this.isClosed) return;
      const isGone = Boolean(fault) && (fault.code === 'ENOENT' || fault.code === 'ENOTDIR');
      if (isGone) this.leave();
      else if (this.session.isUp() && (this.isGone || this.isTriedAgain())) this.comeBack();
      else if (this.polled) this.isGone = false;
      this.timer = setTimeout(() => this.look(), LOOK).unref();
    });
  }

  /** Whether it is time to try a root again that the server refused: a place may be free. */
  isTriedAgain() {
    this.looks = (this.looks + 1) % this.looksUntilNext;
    return this.isRefused && this.looks === 0;
  }

  leave() {
    if (this.isGone) return;
    this.isGone = true;
    this.queue(this.rows.replace([]));
  }

  comeBack() {
    this.isGone = false;
    this.begin();
  }
}

module.exports = { Feed };
