'use strict';
// Servers that end, and watches that others end.

const { execFileSync, spawn } = require('child_process');
const fs = require('fs');
const path = require('path');
const { HOME, Watched, ask, comes, isWatched, pause, put, room, same, scene, server, tree } = require('./scene');

async function killed() {
  const root = tree('killed', ['a', 'b', 'd/c']);
  const watched = new Watched(root, {}, root);
  await watched.ready;
  await watched.sees('the first files', ['addDir .', 'add a', 'add b', 'addDir d', 'add d/c']);
  server.kill();
  put(path.join(root, 'a'), 'changed while no server runs');
  fs.unlinkSync(path.join(root, 'b'));
  put(path.join(root, 'd/new'));
  await watched.sees('what changed meanwhile, once', ['change a', 'unlink b', 'add d/new']);
  same('no error', watched.errors, []);
  put(path.join(root, 'd/c'), 'longer');
  await watched.sees('and later changes', ['change d/c']);
  await watched.watcher.close();
}

async function deleted() {
  const root = tree('deleted', ['a']);
  const watched = new Watched(root, { ignoreInitial: true }, root);
  await watched.ready;
  await ask('watch-del', root);
  put(path.join(root, 'b'));
  await watched.sees('a watch that somebody ended', ['add b']);
  await watched.watcher.close();
}

/** After `wq stop` only a person starts the server. */
async function stopped() {
  const wq = path.resolve(HOME, '..', '..', 'wq');
  const root = tree('stopped', ['a']);
  const watched = new Watched(root, { ignoreInitial: true }, root);
  await watched.ready;
  execFileSync(wq, ['stop'], { stdio: 'ignore' });
  put(path.join(root, 'b'), '');
  await pause(1500);
  same('nobody starts it', server.process(), undefined);
  await watched.sees('this process looks itself', ['add b']);
  same('no error', watched.errors, []);
  execFileSync(wq, ['start'], { stdio: 'ignore' });
  same('the next one watches it', await comes(() => isWatched(root)), true);
  put(path.join(root, 'c'), '');
  await watched.sees('it goes on with the next one', ['add c']);
  await watched.watcher.close();
}

/** A process that nothing keeps ends by itself, and one with a watcher does not. */
async function processes() {
  const root = tree('alive', ['a']);
  const script = `const { watch } = require(${JSON.stringify(HOME)});
const w = watch(${JSON.stringify(root)}, { persistent: process.argv[1] === 'keeps' });
const begins = setInterval(() => {}, 1000);
w.on('ready', () => { console.log('ready'); clearInterval(begins); });`;
  const begun = (word) => {
    const child = spawn(process.execPath, ['-e', script, word], { stdio: ['ignore', 'pipe', 'inherit'] });
    const run = { child, said: '', isEnded: false };
    child.stdout.on('data', (data) => { run.said += data; });
    child.on('close', () => { run.isEnded = true; });
    return run;
  };
  const [lets, keeps] = ['lets', 'keeps'].map(begun);
  await comes(() => lets.isEnded);
  same('persistent: false', [lets.isEnded, lets.said], [true, 'ready\n']);
  await comes(() => keeps.said !== '');
  await pause(2000);
  same('persistent', [keeps.isEnded, keeps.said], [false, 'ready\n']);
  keeps.child.kill('SIGKILL');
  await comes(() => keeps.isEnded);
  const notes = fs.readdirSync(path.join(room, 'state', 'wq', 'roots'));
  same('a root of a process that was killed can be given up', notes.length > 0, true);
}

scene(killed, deleted, stopped, processes);
