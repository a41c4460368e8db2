'use strict';
// Which root is watched for a directory. A small root is scanned soon, so it is the directory itself, until roots of
// a watcher or of the server get many.

const path = require('path');
const { nameBelow } = require('./names');
const { ownRootOf } = require('./notes');

// The server watches 16 roots. Of one watcher they are at most so many before it takes what lies above.
const MOST = 16;
const MOST_OWN = 4;

/** The deepest of some roots that has a path. */
function rootAbove(roots, real) {
  const found = roots.filter((root) => nameBelow(root, real) !== undefined);
  return found.sort((one, other) => other.length - one.length)[0];
}

/** The nearest root that has a path: one of these, or one that `wq watch --root` made. */
function nearestRoot(roots, real) {
  const made = ownRootOf(real);
  return rootAbove(made ? [...roots, made] : roots, real);
}

/**
 * @param {string} real a directory without links
 * @param {string[]} own the roots of this watcher
 * @param {string[]} watched the roots of the server
 * @param {string} project the directory in which the tool works, without links
 * @returns {string}
 */
function rootFor(real, own, watched, project) {
  const covering = rootAbove(own, real);
  if (covering) return covering;
  if (watched.includes(real)) return real;
  const above = rootAbove(watched, real);
  if (own.length < MOST_OWN && watched.length < MOST) return real;
  if (above) return above;
  return nameBelow(project, real) !== undefined && project !== '/' ? project : real;
}

/** The directory of the project in which a file lies: the first step below it. Nothing for a file directly in it. */
function directoryOfProject(real, project) {
  const name = nameBelow(project, real);
  return name && name.includes('/') ? path.join(project, name.split('/')[0]) : undefined;
}

module.exports = { directoryOfProject, nearestRoot, rootFor };
