'use strict';
// The events of a directory, in the order and the words of chokidar.

const fs = require('fs');
const path = require('path');
const { Watched, pause, put, same, scene, tree } = require('./scene');

async function directories() {
  const root = tree('events', ['a.txt', 'd/b.txt']);
  const watched = new Watched(root, { usePolling: true }, root);
  const raw = [];
  const all = [];
  watched.watcher.on('raw', (event, name) => raw.push(`${event} ${path.relative(root, name)}`));
  watched.watcher.on('all', (event, name) => all.push(`${event} ${path.relative(root, name)}`));
  await watched.ready;
  await watched.sees('the first files', ['addDir .', 'add a.txt', 'addDir d', 'add d/b.txt']);
  put(path.join(root, 'a.txt'), 'longer');
  await watched.sees('a change', ['change a.txt']);
  same('all has it', all[all.length - 1], 'change a.txt');
  same('raw has it', raw.includes('change a.txt'), true);
  put(path.join(root, 'new/deep/c.txt'));
  const came = await watched.sees('new directories', ['addDir new', 'addDir new/deep', 'add new/deep/c.txt']);
  same('what is above comes first', came, ['addDir new', 'addDir new/deep', 'add new/deep/c.txt']);
  fs.renameSync(path.join(root, 'new'), path.join(root, 'old'));
  const moved = await watched.sees('a directory that moves', [
    'unlink new/deep/c.txt', 'unlinkDir new/deep', 'unlinkDir new',
    'addDir old', 'addDir old/deep', 'add old/deep/c.txt',
  ]);
  same('what is below goes first', moved.slice(0, 3), ['unlink new/deep/c.txt', 'unlinkDir new/deep', 'unlinkDir new']);
  fs.renameSync(path.join(root, 'old/deep/c.txt'), path.join(root, 'a.txt'));
  await watched.sees('a save by a rename', ['unlink old/deep/c.txt', 'change a.txt']);
  fs.unlinkSync(path.join(root, 'd/b.txt'));
  fs.rmdirSync(path.join(root, 'd'));
  put(path.join(root, 'd'));
  await watched.sees('a file in the place of a directory', ['unlink d/b.txt', 'unlinkDir d', 'add d']);
  same('what is watched', watched.watcher.getWatched(), {
    [path.dirname(root)]: ['events'], [root]: ['a.txt', 'd', 'old'],
    [path.join(root, 'old')]: ['deep'], [path.join(root, 'old/deep')]: [],
  });
  same('no error', watched.errors, []);
  const ended = watched.watcher.close();
  same('close gives a promise', ended instanceof Promise && watched.watcher.close() === ended, true);
  put(path.join(root, 'late'));
  await pause(400);
  same('nothing after close', watched.events, []);
}

/** A root that goes is told as all that was in it, and a root that comes back too. */
async function roots() {
  const root = tree('goes', ['a.txt']);
  const watched = new Watched(root, { ignoreInitial: true }, root);
  await watched.ready;
  fs.rmSync(root, { recursive: true });
  await watched.sees('a root that goes', ['unlink a.txt', 'unlinkDir .']);
  put(path.join(root, 'a.txt'));
  await watched.sees('a root that comes back', ['addDir .', 'add a.txt']);
  await watched.watcher.close();
}

/** An error of a listener is the tool's, and later events come all the same. */
async function listeners() {
  const root = tree('throws', ['a.txt']);
  const faults = [];
  process.on('uncaughtException', (fault) => faults.push(fault.message));
  for (const alwaysStat of [false, true]) {
    const watched = new Watched(root, { ignoreInitial: true, alwaysStat }, root);
    await watched.ready;
    watched.watcher.once('add', () => { throw new Error('of the tool'); });
    put(path.join(root, `one-${alwaysStat}`));
    await watched.sees('an event whose listener throws', [`add one-${alwaysStat}`]);
    put(path.join(root, `two-${alwaysStat}`));
    await watched.sees('an event after it', [`add two-${alwaysStat}`]);
    await watched.watcher.close();
  }
  same('the errors', faults, ['of the tool', 'of the tool']);
}

scene(directories, roots, listeners);
