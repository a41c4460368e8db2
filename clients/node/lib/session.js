'use strict';
// A session with the server, which outlives the server: it connects anew, and starts a server if none runs.

const { EventEmitter } = require('events');
const { connect } = require('./connection');
const { Notes } = require('./notes');
const { startServer, wasStopped } = require('./starting');

const NOBODY_LISTENS = new Set(['ENOENT', 'ECONNREFUSED']);
const FIRST_PAUSE = 50;
const LONGEST_PAUSE = 2000;
// So many failures one after the other are told.
const TOLD_FAILURES = 2;
const FULL = 'E17';

/** Emits `up` when it is connected, `down` when the server went, and `fault` if it cannot connect. */
class Session extends EventEmitter {
  constructor(sockname) {
    super();
    this.setMaxListeners(0);
    this.sockname = sockname;
    this.connection = null;
    this.replies = [];
    this.lists = new Map();
    this.users = 0;
    this.keepers = 0;
    this.pause = FIRST_PAUSE;
    this.failures = 0;
    this.reason = 'it ends the stream';
    this.isReaching = false;
    this.timer = null;
    this.connectedAt = 0;
    this.notes = null;
  }

  /** Someone uses the session. One that keeps it keeps the process alive too. */
  acquire(keeps) {
    this.users += 1;
    if (keeps) this.keepers += 1;
    if (this.users === 1) this.reach();
    this.keepAlive();
  }

  release(keeps) {
    this.users -= 1;
    if (keeps) this.keepers -= 1;
    this.keepAlive();
    if (this.users > 0) return;
    clearTimeout(this.timer);
    if (this.connection) this.connection.socket.end();
  }

  keepAlive() {
    for (const handle of [this.connection && this.connection.socket, this.timer]) {
      if (handle) this.keepers > 0 ? handle.ref() : handle.unref();
    }
  }

  /** Resolves when it is connected, or could not be at once. */
  whenTried() {
    if (this.connection) return Promise.resolve();
    return new Promise((resolve) => {
      this.once('up', resolve);
      this.once('fault', resolve);
    });
  }

  isUp() {
    return this.connection !== null;
  }

  /**
   * Sends a command.
   * @returns {Promise<object>} the reply, which may be an error; without a server it has the error `ended`
   */
  ask(...command) {
    if (!this.connection) return Promise.resolve({ error: 'ended' });
    return new Promise((resolve) => {
      this.replies.push(resolve);
      this.connection.send(command);
    });
  }

  async reach() {
    if (this.isReaching || this.connection) return;
    this.isReaching = true;
    try {
      this.begin(await this.connected());
    } catch (fault) {
      this.failures += 1;
      // A server that is started just now may be ended by somebody else.
      if (this.users > 0 && this.failures >= TOLD_FAILURES) this.emit('fault', fault);
      this.later();
    } finally {
      this.isReaching = false;
    }
  }

  async connected() {
    try {
      return await connect(this.sockname);
    } catch (fault) {
      const isStopped = this.connectedAt && wasStopped(this.sockname, this.connectedAt);
      if (!NOBODY_LISTENS.has(fault.code) || isStopped) throw fault;
    }
    await startServer(this.sockname);
    return connect(this.sockname);
  }

  begin(connection) {
    if (this.users === 0) {
      connection.socket.destroy();
      return;
    }
    this.connection = connection;
    this.notes = new Notes(this.sockname);
    this.connectedAt = Date.now();
    connection.on('value', (value) => this.take(value));
    connection.on('end', () => this.ended(connection));
    this.keepAlive();
    this.emit('up');
  }

  take(value) {
    if (this.connection) this.count(value);
    if (value.unilateral) {
      const feed = this.lists.get(value.subscription);
      if (feed) feed.take(value);
      return;
    }
    const reply = this.replies.shift();
    if (reply) reply(value);
  }

  count(value) {
    if (typeof value.error === 'string' && value.error.startsWith(FULL)) {
      this.reason = value.error;
      return;
    }
    this.connection.isServed = true;
    this.failures = 0;
    this.pause = FIRST_PAUSE;
  }

  /** A server that has no place for one more client ends the stream at once, and is asked again later. */
  countEnd(connection) {
    if (connection.isServed) return;
    this.failures += 1;
    if (this.failures < TOLD_FAILURES) return;
    this.emit('fault', new Error(`the server at ${this.sockname} takes no client: ${this.reason}`));
  }

  ended(connection) {
    if (this.connection !== connection) return;
    this.connection = null;
    for (const reply of this.replies.splice(0)) reply({ error: 'ended' });
    this.emit('down');
    if (this.users > 0) this.countEnd(connection);
    this.later();
  }

  later() {
    if (this.users === 0) return;
    clearTimeout(this.timer);
    this.timer = setTimeout(() => this.reach(), this.pause);
    this.pause = Math.min(2 * this.pause, LONGEST_PAUSE);
    this.keepAlive();
  }
}

module.exports = { Session };
