'use strict';
// Without a place at the server the tool's process looks at the files itself, and says so once.

const { execFileSync } = require('child_process');
const fs = require('fs');
const net = require('net');
const path = require('path');
const {
  HOME, Watched, ask, comes, isWatched, pause, put, room, same, scene, server, tree,
} = require('./scene');
const { Source } = require(path.join(HOME, 'lib', 'source'));

const WQ = path.resolve(HOME, '..', '..', 'wq');

const warnings = [];
process.on('warning', (warning) => warnings.push(warning.message));

/** A seventeenth root is looked at by this process, until a place is free. That is said once. */
async function manyRoots() {
  // In a project its directory would be tried for both.
  process.chdir('/');
  const first = tree('first', ['a']);
  const watched = new Watched(first, {}, room);
  await watched.ready;
  for (let number = 0; number < 15; number += 1) await ask('watch', tree(`other-${number}`, []));
  const ignored = path.join(room, 'late', 'skipped');
  const late = new Watched([tree('late', ['b', 'd/e', 'skipped/f']), tree('later', ['c'])], { ignored }, room);
  await late.ready;
  const found = ['addDir late', 'add late/b', 'addDir late/d', 'add late/d/e', 'addDir later', 'add later/c'];
  await late.sees('no root is left', found);
  same('no error', late.errors, []);
  same('it is said once', warnings.map((text) => text.includes('E13: too many roots')), [true]);
  put(path.join(room, 'late', 'd', 'e'), 'longer');
  fs.unlinkSync(path.join(room, 'late', 'b'));
  put(path.join(room, 'late', 'new/'));
  await late.sees('changes meanwhile', ['change late/d/e', 'unlink late/b', 'addDir late/new']);
  await ask('watch-del', path.join(room, 'other-0'));
  await ask('watch-del', path.join(room, 'other-1'));
  for (const name of ['late', 'later']) await comes(() => isWatched(path.join(room, name)));
  put(path.join(room, 'late', 'b'), '');
  await late.sees('a place that is free', ['add late/b']);
  same('nothing else is said', warnings.length, 1);
  await Promise.all([watched, late].map((each) => each.watcher.close()));
  const left = async () => (await ask('watch-list')).roots.filter((root) => !path.basename(root).startsWith('other'));
  await comes(async () => (await left()).length === 0);
  same('what it had watched is given back', await left(), []);
  for (const root of (await ask('watch-list')).roots) await ask('watch-del', root);
}

/** What `wq watch --root` made a root serves all that is below it, and `wq unwatch` ends that. */
async function ownRoots() {
  const root = tree('made', ['a/b/c', 'a/d']);
  execFileSync(WQ, ['watch', '--root', root]);
  const file = path.join(root, 'a', 'd');
  const watched = new Watched([path.join(root, 'a', 'b'), file], {}, root);
  await watched.ready;
  await watched.sees('below a root of its own', ['addDir a/b', 'add a/b/c', 'add a/d']);
  same('one root serves them', (await ask('watch-list')).roots, [root]);
  put(path.join(root, 'a', 'b', 'e'));
  put(file, 'longer');
  await watched.sees('changes there', ['add a/b/e', 'change a/d']);
  await watched.watcher.close();
  await pause(300);
  same('it stays watched', (await ask('watch-list')).roots, [root]);
  same('a directory for webpack', new Source(root).rootOf(path.join(root, 'a', 'b')), root);
  execFileSync(WQ, ['unwatch', path.join(root, 'a')], { stdio: 'pipe' });
  same('after unwatch', new Source(root).rootOf(path.join(root, 'a', 'b')), path.join(root, 'a'));
}

/** A server with 32 clients takes no other one, until one goes. */
async function manyClients() {
  warnings.length = 0;
  const sockets = [];
  while (sockets.length < 32) sockets.push(await placed());
  const watched = new Watched(tree('full', ['a']), {}, room);
  await watched.ready;
  await watched.sees('no place is left', ['addDir full', 'add full/a']);
  same('it is said', warnings.map((text) => text.includes('takes no client')), [true]);
  for (const socket of sockets) socket.destroy();
  await comes(() => isWatched(path.join(room, 'full')));
  put(path.join(room, 'full', 'b'), '');
  await watched.sees('a place is free again', ['add full/b']);
  await watched.watcher.close();
}

/** A client that the server has taken in: clients of before may take a while to go. */
async function placed() {
  for (let turn = 0; turn < 1200; turn += 1) {
    const socket = net.connect(server.sockname).on('error', () => {});
    const said = await new Promise((resolve) => {
      socket.once('data', resolve);
      socket.once('close', () => resolve('error'));
      socket.write('["version"]\n');
    });
    if (!String(said).includes('error')) return socket.resume();
    socket.destroy();
    await pause(50);
  }
  throw new Error('the server takes no 32 clients');
}

/** Without a server, and where none can be started. */
async function noServer() {
  warnings.length = 0;
  const before = process.env.WQD_SOCK;
  const directory = path.join(room, 'missing');
  process.env.WQD_SOCK = path.join(directory, 'wqd.sock');
  const watched = new Watched(tree('unserved', ['a']), {}, room);
  await watched.ready;
  await watched.sees('this process looks', ['addDir unserved', 'add unserved/a']);
  same('why', warnings.map((text) => text.includes('no server runs, and wq could not start one')), [true]);
  same('no error', watched.errors, []);
  fs.mkdirSync(directory, { mode: 0o700 });
  put(path.join(room, 'unserved', 'b'), '');
  await watched.sees('a change', ['add unserved/b']);
  same('a server watches it', await comes(() => isWatched(path.join(room, 'unserved'))), true);
  put(path.join(room, 'unserved', 'c'), '');
  await watched.sees('a server comes', ['add unserved/c']);
  await watched.watcher.close();
  await new Promise((resolve) => {
    const socket = net.connect(process.env.WQD_SOCK, () => socket.write('["shutdown-server"]\n'));
    socket.on('close', resolve);
    socket.resume();
  });
  process.env.WQD_SOCK = before;
}

scene(manyRoots, ownRoots, manyClients, noServer);
