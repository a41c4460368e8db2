'use strict';
// Which process listens at a socket, as the system's tables say. Node does not tell the other end of a stream.

const fs = require('fs');
const path = require('path');

// In /proc/net/unix: a socket that accepts connections.
const ACCEPTS = '00010000';
// Of a tick of the system, in milliseconds.
const TICK = 10;

/**
 * @param {string} sockname
 * @returns {string|undefined} the process and its start, which no later process has; nothing if it cannot be seen
 */
function runAt(sockname) {
  try {
    const sockets = inodesIn(path.dirname(sockname));
    const owner = sockets.length === 1 && processes().find((one) => hasSocket(one, `socket:[${sockets[0]}]`));
    return owner ? runOf(owner) : undefined;
  } catch {
    return undefined;
  }
}

/** The sockets that servers in this directory accept connections at: they are made in `.wqd0` or the like. */
function inodesIn(directory) {
  const lines = fs.readFileSync('/proc/net/unix', 'utf8').split('\n').map((line) => line.trim().split(/\s+/));
  const accepting = lines.filter((words) => words[3] === ACCEPTS && words.length > 7);
  return accepting.filter((words) => words[7].startsWith(`${directory}/.wqd`)).map((words) => words[6]);
}

function processes() {
  return fs.readdirSync('/proc').filter((name) => /^\d+$/.test(name));
}

function hasSocket(process, wanted) {
  const directory = `/proc/${process}/fd`;
  try {
    return fs.readdirSync(directory).some((one) => fs.readlinkSync(path.join(directory, one)) === wanted);
  } catch {
    return false;
  }
}

/** A name of a process that no later one with its number has, as the notes of `wq` have it. */
function runOf(process) {
  try {
    const words = fs.readFileSync(`/proc/${process}/stat`, 'utf8').split(')').pop().trim().split(/\s+/);
    return `${process}:${words[19]}`;
  } catch {
    return `${process}:?`;
  }
}

/** The processor's time that a process has taken, in milliseconds; not a number if it cannot be seen. */
function processorTime(run) {
  try {
    const words = fs.readFileSync(`/proc/${run.split(':')[0]}/stat`, 'utf8').split(')').pop().trim().split(/\s+/);
    return (Number(words[11]) + Number(words[12])) * TICK;
  } catch {
    return NaN;
  }
}

module.exports = { processorTime, runAt, runOf };
