'use strict';
// On a tree whose every answer comes late, as over a network, the server's own rounds take seconds, since one thread
// makes them. A scan for a client is made by many threads, so a feed asks for one after the other. A tree in memory
// is left to the rounds, whose share of a processor somebody chose.

const fs = require('fs');
const path = require('path');
const { processorTime } = require('./owner');

// An answer is late that takes longer, in milliseconds: one from memory takes some microseconds.
const LATE = 0.2;
// So many files of the root are looked at for that.
const LOOKS = 8;
// A scan that takes longer is too slow for people, and one that takes much longer would hold up other clients.
const SLOW = 50;
const TOO_SLOW = 2000;
// At most this part of a scan's time may be the processor's.
const BUSY = 0.5;
// Scans take at most a quarter of the time of one processor, and at most half of the time of the disk.
const REST = 3;
const SHORTEST_PAUSE = 100;
// After this number of quick scans, one after the other, the tree is a slow one no longer.
const QUICK_SCANS = 20;

class Haste {
  /** @param {object} feed asks for scans of its root */
  constructor(feed) {
    this.feed = feed;
    this.timer = null;
    this.left = 0;
  }

  end() {
    clearTimeout(this.timer);
    this.timer = null;
  }

  /** Has the root scanned, and asks for more scans if it is a slow one. The reply. */
  async scan(ask) {
    this.end();
    const { session, root } = this.feed;
    const owner = session.notes && session.notes.run;
    const began = { time: Date.now(), processor: processorTime(owner) };
    const reply = await ask();
    const took = Date.now() - began.time;
    const used = processorTime(owner) - began.processor;
    if (reply.error || this.feed.isClosed || !Number.isFinite(used)) return reply;
    if (used > BUSY * took || took > TOO_SLOW) this.left = 0;
    else if (took > SLOW && (this.left > 0 || isLate(root))) this.left = QUICK_SCANS;
    else this.left -= 1;
    if (this.left > 0) this.later(Math.max(SHORTEST_PAUSE, took, REST * used));
    return reply;
  }

  later(pause) {
    this.timer = setTimeout(() => this.scan(() => this.feed.scanned()), pause).unref();
  }
}

/** Whether most of the first files of a directory take long to answer. */
function isLate(directory) {
  try {
    const names = ['', ...fs.readdirSync(directory).slice(0, LOOKS - 1)];
    const times = names.map((name) => timeOf(path.join(directory, name))).sort((one, other) => one - other);
    return times[Math.floor(times.length / 2)] > LATE;
  } catch {
    return false;
  }
}

/** How long an answer of the file system takes, in milliseconds. */
function timeOf(name) {
  const began = process.hrtime.bigint();
  fs.lstatSync(name, { throwIfNoEntry: false });
  return Number(process.hrtime.bigint() - began) / 1e6;
}

module.exports = { Haste };
