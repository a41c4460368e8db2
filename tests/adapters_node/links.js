'use strict';
// Symbolic links, which chokidar follows when it polls, and the server does not.

const fs = require('fs');
const path = require('path');
const { Watched, put, scene, tree } = require('./scene');

async function followed() {
  const root = tree('links', ['a.txt', 'd/b.txt']);
  const outside = tree('outside', ['o.txt', 'e/p.txt']);
  fs.symlinkSync(outside, path.join(root, 'far'));
  fs.symlinkSync('a.txt', path.join(root, 'near.txt'));
  fs.symlinkSync('nowhere', path.join(root, 'broken'));
  fs.symlinkSync('..', path.join(root, 'd/up'));
  const watched = new Watched(root, {}, root);
  await watched.ready;
  await watched.sees('links are followed, but not around', [
    'addDir .', 'add a.txt', 'addDir d', 'add d/b.txt', 'addDir far', 'add far/o.txt', 'addDir far/e',
    'add far/e/p.txt', 'add near.txt',
  ]);
  put(path.join(outside, 'e/p.txt'), 'longer');
  put(path.join(root, 'a.txt'), 'longer');
  await watched.sees('changes behind links', ['change far/e/p.txt', 'change a.txt', 'change near.txt']);
  put(path.join(root, 'nowhere'));
  await watched.sees('a link that leads somewhere now', ['add nowhere', 'add broken']);
  fs.unlinkSync(path.join(root, 'far'));
  fs.unlinkSync(path.join(root, 'near.txt'));
  await watched.sees('links that go', [
    'unlink far/o.txt', 'unlink far/e/p.txt', 'unlinkDir far/e', 'unlinkDir far', 'unlink near.txt']);
  fs.symlinkSync(path.join(outside, 'e'), path.join(root, 'far'));
  await watched.sees('a link that leads elsewhere', ['addDir far', 'add far/p.txt']);
  await watched.watcher.close();
}

async function asTheyAre() {
  const root = tree('kept', ['a.txt', 'd/b.txt']);
  fs.symlinkSync('d', path.join(root, 'link'));
  const watched = new Watched(root, { followSymlinks: false }, root);
  await watched.ready;
  await watched.sees('a link is a file', ['addDir .', 'add a.txt', 'addDir d', 'add d/b.txt', 'add link']);
  fs.unlinkSync(path.join(root, 'link'));
  await watched.sees('that goes', ['unlink link']);
  await watched.watcher.close();
}

/** The directory itself, or one above it, may be a link. */
async function above() {
  const root = tree('real', ['sub/a.txt']);
  const link = path.join(path.dirname(root), 'by-link');
  fs.symlinkSync(root, link);
  const watched = new Watched([link, path.join(link, 'sub')], {}, link);
  await watched.ready;
  await watched.sees('names are as they were given', ['addDir .', 'addDir sub', 'add sub/a.txt']);
  put(path.join(root, 'sub/a.txt'), 'longer');
  await watched.sees('also of changes', ['change sub/a.txt']);
  await watched.watcher.close();
}

scene(followed, asTheyAre, above);
