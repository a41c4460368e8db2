'use strict';
// Paths as tools give them: files, also absent ones, lists, globs, from a working directory, and taken out again.

const fs = require('fs');
const path = require('path');
const { Watched, chokidar, pause, put, same, scene, tree } = require('./scene');

async function singleFiles() {
  const root = tree('single', ['a.txt', 'other.txt', 'src/b.txt', 'src/c.txt']);
  process.chdir(root);
  const watched = new Watched(['a.txt', 'src/b.txt', 'late.txt', 'no/such/file']);
  await watched.ready;
  await watched.sees('files by their names', ['add a.txt', 'add src/b.txt']);
  put('a.txt', 'longer');
  put('src/b.txt', 'longer');
  put('other.txt', 'longer');
  put('src/c.txt', 'longer');
  await watched.sees('their changes', ['change a.txt', 'change src/b.txt']);
  put('late.txt');
  put('no/such/file');
  await watched.sees('files that come later', ['add late.txt', 'add no/such/file']);
  fs.unlinkSync('a.txt');
  fs.unlinkSync('src/b.txt');
  await watched.sees('files that go', ['unlink a.txt', 'unlink src/b.txt']);
  put('a.txt');
  put('src/b.txt');
  await watched.sees('and come back', ['add a.txt', 'add src/b.txt']);
  await watched.watcher.close();
}

async function directoriesThatComeLater() {
  const root = tree('later', []);
  process.chdir(root);
  const watched = new Watched(['out', 'gen/**/*.js']);
  await watched.ready;
  await watched.sees('nothing is there', []);
  put('out/a.txt');
  put('gen/x/a.js');
  put('gen/x/a.txt');
  await watched.sees('a directory and a glob', ['addDir out', 'add out/a.txt', 'add gen/x/a.js']);
  await watched.watcher.close();
}

const SRC = ['addDir src', 'add src/a.js', 'add src/b.css'];
const LIB = ['addDir lib', 'add lib/c.js'];

async function names() {
  const root = tree('names', ['src/a.js', 'src/b.css', 'lib/c.js']);
  process.chdir(root);
  for (const [title, paths, options, expected] of [
    ['a relative directory', './src/', {}, SRC],
    ['the directory itself', '.', { depth: 0 }, ['addDir .', 'addDir src', 'addDir lib']],
    ['a glob', 'src/*.js', {}, ['add src/a.js']],
    ['a list, with one twice', [['src', 'src'], 'lib'], {}, [...SRC, ...LIB]],
    ['one in the other', ['.', 'src'], {}, ['addDir .', ...SRC, ...LIB]],
    ['cwd', ['src', 'lib/*.js'], { cwd: root }, [...SRC, 'add lib/c.js']],
    ['what is left out by !', ['src', '!**/*.css'], {}, ['addDir src', 'add src/a.js']],
    ['no globbing', 'src/*.js', { disableGlobbing: true }, []],
  ]) {
    const watched = new Watched(paths, options);
    await watched.ready;
    await watched.sees(title, expected);
    await watched.watcher.close();
  }
  let fault;
  try { chokidar.watch([7]); } catch (found) { fault = found; }
  same('a path that is no text', fault instanceof TypeError, true);
}

async function addAndUnwatch() {
  const root = tree('taken', ['a/x', 'a/sub/y', 'b/z']);
  const watched = new Watched(path.join(root, 'a'), { cwd: root });
  await watched.ready;
  await watched.sees('the first', ['addDir a', 'add a/x', 'addDir a/sub', 'add a/sub/y']);
  watched.watcher.add('b');
  await watched.sees('one more', ['addDir b', 'add b/z']);
  watched.watcher.unwatch('a/sub');
  await pause(300);
  same('what is watched then', watched.watcher.getWatched(), { '.': ['a', 'b'], a: ['x'], b: ['z'] });
  put(path.join(root, 'a/sub/y'), 'longer');
  put(path.join(root, 'a/x'), 'longer');
  await watched.sees('no change of what is out', ['change a/x']);
  watched.watcher.add('a/sub');
  await watched.sees('back again', ['addDir a/sub', 'add a/sub/y']);
  put(path.join(root, 'a/sub/y'), 'longer again');
  await watched.sees('and its changes', ['change a/sub/y']);
  await watched.watcher.close();
  watched.watcher.on('add', (name) => watched.events.push(`add ${name}`));
  watched.watcher.add('b');
  await watched.sees('a watcher that was closed', ['add b/z']);
  await watched.watcher.close();
}

scene(singleFiles, directoriesThatComeLater, names, addAndUnwatch);
