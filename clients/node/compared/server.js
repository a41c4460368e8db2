'use strict';
// A server for comparisons, in a directory of its own. The adapter starts it, also after it was killed.

const fs = require('fs');
const net = require('net');
const path = require('path');

// A server that starts is left alone, in milliseconds.
const APART = 1500;

class Server {
  constructor(room) {
    this.sockname = path.join(room, 'wqd.sock');
    this.killed = 0;
    process.env.WQD_SOCK = this.sockname;
  }

  /** Ends the server at once, without a word to its clients, unless another history did so just now. */
  kill() {
    const owner = this.process();
    if (!owner || Date.now() - this.killed < APART) return;
    this.killed = Date.now();
    process.kill(owner, 'SIGKILL');
  }

  /** The process that listens: the one whose command line has the socket. */
  process() {
    for (const one of fs.readdirSync('/proc').filter((name) => /^\d+$/.test(name))) {
      try {
        const words = fs.readFileSync(`/proc/${one}/cmdline`, 'utf8').split('\0');
        if (words.includes('serve') && words.includes(this.sockname)) return Number(one);
      } catch {
        // It ended meanwhile.
      }
    }
    return undefined;
  }

  end() {
    return new Promise((resolve) => {
      const socket = net.connect(this.sockname, () => socket.write('["shutdown-server"]\n'));
      socket.on('error', resolve);
      socket.on('close', resolve);
      socket.on('data', () => {});
    });
  }
}

module.exports = { Server };
