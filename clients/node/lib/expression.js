'use strict';
// The part of a watcher's files that can be said to the server. The watcher filters the rest by itself.

const path = require('path');
const { nameBelow } = require('./names');

// Globs of `ignored` that the server takes: a name, or all below a name, in any directory.
const ANYWHERE = /^\*\*\/([\w.@-]+)(\/\*\*(?:\/\*)?)?$/;
// A regular expression that is a plain part of a name.
const PLAIN = /^[\w@-]+$/;
const SUFFIXES = /\*\.(?:([A-Za-z0-9]+)|\{([A-Za-z0-9]+(?:,[A-Za-z0-9]+)*)\})$/;
const ALL_DOTS = { includedotfiles: true };
// The server takes a name of so many bytes.
const LONGEST = 4096;

/**
 * @param {object[]} places those of one root
 * @param {object} ignoring what the watcher leaves out
 * @param {string} root
 * @returns {object} an expression that matches each file that one of the places may tell
 */
function expressionOf(places, ignoring, root) {
  const points = places.filter((place) => place.isPoint).map((place) => place.below);
  const terms = places.filter((place) => !place.isPoint).map(termOf);
  if (points.length > 0) terms.push(['name', points, 'wholename']);
  const ignored = ignoredTerms(places, ignoring, root);
  return ignored.length > 0 ? ['allof', ['anyof', ...terms], ['not', ['anyof', ...ignored]]] : ['anyof', ...terms];
}

function termOf({ below, depth, text }) {
  const deep = Number.isFinite(depth) ? [['depth', 'le', Math.max(depth, 0)]] : [];
  const inside = below === '' && deep.length === 0 ? 'true' : ['dirname', below, ...deep];
  const suffixes = text && SUFFIXES.exec(text);
  const listed = suffixes && (suffixes[1] || suffixes[2]).split(',');
  const limited = listed ? ['allof', inside, ['anyof', ['not', ['type', 'f']], ['suffix', listed]]] : inside;
  return below === '' ? limited : ['anyof', ['name', below, 'wholename'], limited];
}

/** Files that every place would leave out: not those of a link, whose names there are others. */
function ignoredTerms(places, ignoring, root) {
  if (ignoring.negated.length > 0 || places.some((place) => path.resolve(place.shown) !== place.real)) return [];
  const found = [];
  for (const one of ignoring.paths) {
    const name = nameBelow(root, path.resolve(one));
    if (name && Buffer.byteLength(name) <= LONGEST) found.push(['dirname', name]);
  }
  for (const glob of ignoring.globs) {
    const name = ANYWHERE.exec(glob);
    if (name) found.push(['match', `**/${name[1]}/**`, 'wholename', ALL_DOTS]);
  }
  for (const test of ignoring.tests) {
    if (test instanceof RegExp && test.flags === '' && PLAIN.test(test.source)) {
      found.push(['match', `**/*${test.source}*/**`, 'wholename', ALL_DOTS]);
    }
  }
  return found;
}

module.exports = { expressionOf };
