'use strict';
// A stream to a server, on which each value is a line of JSON.

const net = require('net');
const { EventEmitter } = require('events');
const { throughOwnDirectory } = require('./sockname');

// No line of a server is longer, as in the other clients.
const LONGEST = 536_870_912;
const NEWLINE = 10;

/** Emits `value` for each line, and `end` once. */
class Connection extends EventEmitter {
  constructor(socket) {
    super();
    this.socket = socket;
    this.pieces = [];
    this.length = 0;
    socket.on('data', (data) => this.receive(data));
    socket.on('error', () => socket.destroy());
    socket.on('close', () => this.emit('end'));
  }

  send(command) {
    this.socket.write(`${JSON.stringify(command)}\n`);
  }

  receive(data) {
    let from = 0;
    for (let end = data.indexOf(NEWLINE); end >= 0; end = data.indexOf(NEWLINE, from)) {
      this.pieces.push(data.subarray(from, end));
      from = end + 1;
      const line = Buffer.concat(this.pieces).toString('utf8');
      this.pieces = [];
      this.length = 0;
      this.take(line);
    }
    if (from < data.length) this.pieces.push(data.subarray(from));
    this.length += data.length - from;
    if (this.length > LONGEST) this.socket.destroy();
  }

  take(line) {
    let value;
    try {
      value = JSON.parse(line);
    } catch {
      this.socket.destroy();
      return;
    }
    this.emit('value', value);
  }
}

/**
 * Connects to a server of this user.
 * @param {string} sockname
 * @returns {Promise<Connection>}
 */
function connect(sockname) {
  return new Promise((resolve, reject) => {
    const socket = new net.Socket();
    const close = throughOwnDirectory(sockname, (inside) => socket.connect({ path: inside }));
    socket.once('error', (fault) => {
      close();
      reject(fault);
    });
    socket.once('connect', () => {
      socket.removeAllListeners('error');
      close();
      resolve(new Connection(socket));
    });
  });
}

module.exports = { connect };
