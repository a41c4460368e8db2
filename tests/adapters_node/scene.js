'use strict';
// What the scenes share: a tree, a watcher whose events are kept, and checks.

const fs = require('fs');
const net = require('net');
const path = require('path');
const { isDeepStrictEqual } = require('util');

const HOME = path.resolve(__dirname, '..', '..', 'clients', 'node');
const chokidar = require(HOME);
const { Server } = require(path.join(HOME, 'compared', 'server'));

// A check waits so long for an event, and a scene that hangs ends after so long: neither bounds what is tested.
const PATIENCE = 60_000;
const LONGEST = 400_000;
const TRIES = 5;
const EVENTS = ['add', 'addDir', 'change', 'unlink', 'unlinkDir'];

const room = process.env.XDG_RUNTIME_DIR;
const server = new Server(room);
const pause = (milliseconds) => new Promise((resolve) => { setTimeout(resolve, milliseconds); });

function same(name, found, expected) {
  const isRight = isDeepStrictEqual(found, expected);
  process.stdout.write(isRight ? `ok ${name}\n` : `failed ${name}: expected ${show(expected)}, found ${show(found)}\n`);
}

function show(value) {
  return JSON.stringify(value instanceof Map ? [...value] : value);
}

/** A new directory with these files, each with its name in it. A name that ends in a slash is a directory. */
function tree(name, files) {
  const root = path.join(room, name);
  fs.mkdirSync(root);
  for (const file of files) put(path.join(root, file));
  return root;
}

/**
 * Writes a file, or makes a directory if the name ends in a slash. A scan may come between any two steps, and a file
 * that is emptied or made first would be two changes. So a file is written in place by one write, or moved in whole
 * where it is new or was longer.
 */
function put(file, content = path.basename(file)) {
  fs.mkdirSync(file.endsWith('/') ? file : path.dirname(file), { recursive: true });
  if (file.endsWith('/')) return;
  const bytes = Buffer.from(content);
  const stats = fs.statSync(file, { throwIfNoEntry: false });
  if (!stats || stats.size > bytes.length) {
    const aside = path.join(room, '.aside');
    fs.writeFileSync(aside, bytes);
    fs.renameSync(aside, file);
    return;
  }
  const handle = fs.openSync(file, 'r+');
  fs.writeSync(handle, bytes, 0, bytes.length, 0);
  fs.closeSync(handle);
}

/** Whether this comes to be so before the patience ends. */
async function comes(isSo) {
  const end = Date.now() + PATIENCE;
  while (!(await isSo()) && Date.now() < end) await pause(20);
  return Boolean(await isSo());
}

/** A watcher and the events that it emitted, as texts such as `add a.txt`, with names from a directory on. */
class Watched {
  constructor(paths, options = {}, from = room) {
    this.events = [];
    this.errors = [];
    this.watcher = chokidar.watch(paths, options);
    for (const event of EVENTS) {
      this.watcher.on(event, (name) => {
        const plain = path.isAbsolute(name) ? path.relative(from, name) || '.' : name;
        this.events.push(`${event} ${plain}`);
      });
    }
    this.watcher.on('error', (fault) => this.errors.push(fault.message));
    this.ready = new Promise((resolve) => { this.watcher.once('ready', resolve); });
  }

  /** The events since the last call, when there is one and nothing else comes after it for a while. */
  async hears() {
    await comes(() => this.events.length > 0);
    await pause(1000);
    return this.events.splice(0);
  }

  /** The events since the last call, when they are these in any order, or the patience ends. */
  async sees(name, expected) {
    const end = Date.now() + PATIENCE;
    const isThere = () => isDeepStrictEqual([...this.events].sort(), [...expected].sort());
    while (!isThere() && Date.now() < end) await pause(20);
    // Nothing else comes after them.
    await pause(250);
    same(name, [...this.events].sort(), [...expected].sort());
    return this.events.splice(0);
  }
}

/**
 * Tries several times, until a try finds what is expected: a machine that does nothing for a while may spoil one. A try
 * gets its number.
 */
async function tried(name, expected, attempt) {
  let found;
  for (let turn = 0; turn < TRIES && !isDeepStrictEqual(found, expected); turn += 1) found = await attempt(turn);
  same(name, found, expected);
}

/** Asks the server of now by a stream of its own. */
function ask(...command) {
  return new Promise((resolve, reject) => {
    const socket = net.connect(process.env.WQD_SOCK);
    let said = '';
    socket.on('error', reject);
    socket.on('data', (data) => {
      said += data;
      if (!said.includes('\n')) return;
      socket.destroy();
      resolve(JSON.parse(said.split('\n')[0]));
    });
    socket.write(`${JSON.stringify(command)}\n`);
  });
}

/** Whether the server of now watches a root. */
async function isWatched(root) {
  return (await ask('watch-list').catch(() => ({ roots: [] }))).roots.includes(root);
}

/** Runs the parts of a scene, one after the other, and ends the server. */
async function scene(...parts) {
  let now = '';
  setTimeout(() => {
    process.stdout.write(`${now} takes too long\n`);
    server.kill();
    process.exit(1);
  }, LONGEST);
  try {
    for (const part of parts) {
      now = part.name;
      await part();
    }
    process.stdout.write('end\n');
  } catch (fault) {
    process.stdout.write(`${fault.stack}\n`);
  }
  await server.end();
  process.exit(0);
}

module.exports = {
  HOME, PATIENCE, Watched, ask, chokidar, comes, isWatched, pause, put, room, same, scene, server, tree, tried,
};
