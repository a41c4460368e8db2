'use strict';
// How many roots a process takes, and what the adapter does not believe.

const fs = require('fs');
const net = require('net');
const path = require('path');
const { HOME, Watched, ask, comes, put, room, same, scene, server, tree } = require('./scene');

/** Seventeen watchers of one process: each is told of its files, also the one for which the server has no root. */
async function manyWatchers() {
  // In a project its directory would be taken.
  process.chdir('/');
  tree('many', Array.from({ length: 17 }, (_, number) => `${number}/a`));
  const all = Array.from({ length: 17 }, (_, number) => new Watched(path.join(room, 'many', String(number)), {}, room));
  await Promise.all(all.map((each) => each.ready));
  put(path.join(room, 'many', '16', 'b'), '');
  await all[16].sees('the last of them', ['addDir many/16', 'add many/16/a', 'add many/16/b']);
  const { roots } = await ask('watch-list');
  same('their roots', roots.length, 16);
  await Promise.all(all.map((each) => each.watcher.close()));
  await comes(async () => (await ask('watch-list')).roots.length === 0);
  same('they are given back', (await ask('watch-list')).roots, []);
}

async function foreignSocket() {
  const { throughOwnDirectory } = require(path.join(HOME, 'lib', 'sockname'));
  const open = tree('open', []);
  fs.chmodSync(open, 0o777);
  const listener = net.createServer().listen(path.join(open, 'wqd.sock'));
  await new Promise((resolve) => { listener.on('listening', resolve); });
  const refused = (name) => {
    try { throughOwnDirectory(name, () => {})(); return ''; } catch (fault) { return fault.code; }
  };
  same('a directory that others may write to', refused(path.join(open, 'wqd.sock')), 'EPERM');
  fs.symlinkSync(path.join(open, 'wqd.sock'), path.join(room, 'link.sock'));
  same('a link to a socket there', refused(path.join(room, 'link.sock')), 'EPERM');
  put(path.join(room, 'file.sock'));
  same('a file', refused(path.join(room, 'file.sock')), 'EPERM');
  same('its own', refused(server.sockname), '');
  listener.close();
}

/** A server that says names which lead out of the root, and lines that are none. */
async function falseNames() {
  const root = tree('false', ['a']);
  const before = process.env.WQD_SOCK;
  process.env.WQD_SOCK = path.join(room, 'false.sock');
  const names = ['../out', '/etc/passwd', 'a/../../b', './c', 'd//e', '', 'a', 7, 'n\0ul'];
  const listener = net.createServer((socket) => {
    socket.on('error', () => {});
    socket.on('data', (data) => {
      for (const line of String(data).trim().split('\n')) {
        const [command, , name] = JSON.parse(line);
        socket.write(`${JSON.stringify({ [command]: true, roots: [] })}\n`);
        const files = names.map((one) => ({ name: one, exists: true, type: 'f', size: 1, mtime_ms: 1 }));
        if (command !== 'subscribe') continue;
        const list = { unilateral: true, subscription: name, root, is_fresh_instance: true, files };
        socket.write(`${JSON.stringify(list)}\n`);
        setTimeout(() => socket.write('{"files":\n'), 100);
      }
    });
  }).listen(process.env.WQD_SOCK);
  await new Promise((resolve) => { listener.on('listening', resolve); });
  const watched = new Watched(root, {}, root);
  await watched.ready;
  await watched.sees('names that stay below the root', ['addDir .', 'add a']);
  await watched.watcher.close();
  listener.close();
  process.env.WQD_SOCK = before;
}

scene(manyWatchers, foreignSocket, falseNames);
