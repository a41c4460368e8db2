'use strict';
// The options of chokidar.

const fs = require('fs');
const path = require('path');
const { Watched, chokidar, pause, put, same, scene, tree, tried } = require('./scene');

const FILES = ['a.js', 'b.css', 'node_modules/m/i.js', 'src/c.js', 'src/deep/d.js', '.git/HEAD'];
const DIRECTORIES = [
  'addDir .', 'addDir node_modules', 'addDir node_modules/m', 'addDir src', 'addDir src/deep', 'addDir .git',
];
const SOURCES = [
  'addDir .', 'add a.js', 'add b.css', 'addDir src', 'add src/c.js', 'addDir src/deep', 'add src/deep/d.js',
];
const isOfGit = (one, stats) => Boolean(stats) && one.endsWith('.git') && stats.isDirectory();

async function ignored() {
  const root = tree('ignored', FILES);
  for (const [title, ignores, expected] of [
    ['globs', ['**/node_modules/**', '**/.git/**'], SOURCES],
    ['globs of a name', ['**/node_modules', '**/.git'], SOURCES],
    ['an expression', /node_modules|[/]\.git/, SOURCES],
    ['a plain word as an expression, and a path', [/node_modules/, path.join(root, '.git')], SOURCES],
    ['functions', [(one) => one.includes('node_modules'), isOfGit], SOURCES],
    ['all files of a kind', '**/*.js', ['add b.css', ...DIRECTORIES, 'add .git/HEAD']],
    ['but not these', ['**/*.js', '!**/c.js'], ['add b.css', ...DIRECTORIES, 'add .git/HEAD', 'add src/c.js']],
    ['the directory itself', root, []],
  ]) {
    const watched = new Watched(root, { ignored: ignores }, root);
    await watched.ready;
    await watched.sees(`ignored: ${title}`, expected);
    put(path.join(root, 'node_modules/m/i.js'), String(Date.now() + title.length));
    put(path.join(root, 'b.css'), `${Date.now()}${title}`);
    await watched.sees(`ignored: ${title}, changes`, expected.length > 0 ? ['change b.css'] : []);
    await watched.watcher.close();
  }
}

async function depthAndInitial() {
  const root = tree('depth', FILES);
  const none = new Watched(root, { ignoreInitial: true }, root);
  const flat = new Watched(root, { depth: 0 }, root);
  const one = new Watched(`${root}/src`, { depth: 0 }, root);
  await Promise.all([none.ready, flat.ready, one.ready]);
  await none.sees('ignoreInitial', []);
  await flat.sees('depth 0', ['addDir .', 'addDir node_modules', 'addDir src', 'addDir .git', 'add a.js', 'add b.css']);
  await one.sees('depth 0 below', ['addDir src', 'add src/c.js', 'addDir src/deep']);
  put(path.join(root, 'src/deep/new.js'));
  put(path.join(root, 'src/e.js'));
  await none.sees('new files', ['add src/e.js', 'add src/deep/new.js']);
  await flat.sees('none at that depth', []);
  await one.sees('one at that depth', ['add src/e.js']);
  await Promise.all([none, flat, one].map((each) => each.watcher.close()));
}

async function atomic() {
  const root = tree('atomic', ['b.txt']);
  const watched = new Watched(root, { ignoreInitial: true, atomic: 1500 }, root);
  await watched.ready;
  const goAndCome = async (number) => {
    put(path.join(root, `a${number}.txt`));
    await watched.sees(`a file before that, ${number}`, [`add a${number}.txt`]);
    fs.unlinkSync(path.join(root, `a${number}.txt`));
    await pause(600);
    put(path.join(root, `a${number}.txt`), 'again');
    put(path.join(root, '.b.txt.swp'));
    put(path.join(root, 'b.txt~'));
    return (await watched.hears()).map((event) => event.replace(`a${number}`, 'a'));
  };
  await tried('a file that goes and comes is a change, and files of editors are none', ['change a.txt'], goAndCome);
  fs.unlinkSync(path.join(root, 'b.txt'));
  await watched.sees('one that goes for longer', ['unlink b.txt']);
  await watched.watcher.close();
}

async function awaitWriteFinish() {
  const root = tree('finish', ['a.txt']);
  const watched = new Watched(root, { awaitWriteFinish: { stabilityThreshold: 1500, pollInterval: 50 } }, root);
  await watched.ready;
  await watched.sees('the first files at once', ['addDir .', 'add a.txt']);
  let sizes = [];
  watched.watcher.on('add', (name, stats) => sizes.push(stats.size));
  const grow = async (number) => {
    sizes = [];
    for (const text of ['1', '12', '123', '1234']) {
      put(path.join(root, `slow${number}.txt`), text);
      await pause(250);
    }
    const early = [...watched.events];
    const heard = (await watched.hears()).map((event) => event.replace(`slow${number}`, 'slow'));
    return [early, heard, sizes];
  };
  await tried('one event of a file that grows, in the end and with its size', [[], ['add slow.txt'], [4]], grow);
  await tried('no event of a file that went before', [], async (number) => {
    put(path.join(root, `short${number}.txt`));
    await pause(250);
    fs.unlinkSync(path.join(root, `short${number}.txt`));
    await pause(2000);
    return watched.events.splice(0);
  });
  await watched.watcher.close();
}

async function stats() {
  const root = tree('stats', ['a.txt']);
  for (const alwaysStat of [false, true]) {
    const found = [];
    const watcher = chokidar.watch(root, { alwaysStat });
    watcher.on('add', (name, is) => {
      found.push([is.isFile(), is.size, is.mtime instanceof Date, is.ino === fs.statSync(name).ino]);
    });
    watcher.on('addDir', (name, is) => found.push([is.isDirectory()]));
    await new Promise((resolve) => { watcher.on('ready', () => setTimeout(resolve, 100)); });
    same(`stats, alwaysStat ${alwaysStat}`, found, [[true], [true, 5, true, alwaysStat]]);
    await watcher.close();
  }
  const { options } = chokidar.watch([], { usePolling: true, interval: 7 });
  const { usePolling, interval, persistent, atomic: isAtomic } = options;
  same('options can be read', { usePolling, interval, persistent, isAtomic },
    { usePolling: true, interval: 7, persistent: true, isAtomic: false });
}

scene(ignored, depthAndInitial, atomic, awaitWriteFinish, stats);
