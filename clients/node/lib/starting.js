'use strict';
// Starts a server by the command `wq`, which starts one and not two, and keeps its log.

const { spawn } = require('child_process');
const crypto = require('crypto');
const fs = require('fs');
const path = require('path');
const { notesDirectory } = require('./sockname');

const LONGEST_REASON = 4096;

/**
 * Starts a server at a socket, unless one listens there.
 * @param {string} sockname
 * @returns {Promise<void>} an error has the last line that `wq` wrote
 */
function startServer(sockname) {
  return new Promise((resolve, reject) => {
    const command = commandOfPeople();
    const environment = { ...process.env, WQD_SOCK: sockname };
    // What a tool is run with, such as --require, is not for the processes of others.
    delete environment.NODE_OPTIONS;
    const child = spawn(command, ['start'], { stdio: ['ignore', 'ignore', 'pipe'], env: environment });
    let said = '';
    child.stderr.on('data', (data) => { said = (said + data).slice(-LONGEST_REASON); });
    const fail = (reason) => reject(new Error(`no server runs, and wq could not start one: ${reason}`));
    child.on('error', (fault) => fail(fault.message));
    child.on('close', (status) => {
      if (status === 0) resolve();
      else fail(lastLine(said));
    });
  });
}

function lastLine(text) {
  return text.trim().split('\n').pop();
}

/** `wq` of the clone or of the prefix that this package is in; else the one on the PATH. */
function commandOfPeople() {
  const clone = path.resolve(__dirname, '..', '..', '..');
  if (fs.existsSync(path.join(clone, 'crates.txt'))) return path.join(clone, 'wq');
  const installed = path.resolve(__dirname, '..', '..', '..', '..', 'bin', 'wq');
  return fs.existsSync(installed) ? installed : 'wq';
}

/**
 * Whether a person stopped the server on purpose, by `wq stop`, after a moment. Then nobody but a person starts it.
 * @param {string} sockname
 * @param {number} since milliseconds of the Unix epoch
 */
function wasStopped(sockname, since) {
  const name = crypto.createHash('sha256').update(sockname).digest('hex').slice(0, 32);
  try {
    return fs.lstatSync(path.join(notesDirectory(), 'stops', name)).mtimeMs >= since;
  } catch {
    return false;
  }
}

module.exports = { startServer, wasStopped };
