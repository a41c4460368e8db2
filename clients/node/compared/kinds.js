'use strict';
// The ways in which a tool may watch a tree. Each says with plain words which files it is to be told.

const path = require('path');

const isJs = (name) => name.endsWith('.js');
const steps = (name) => name.split('/');
const everything = () => true;

/** Names are from the root; `wants` gets a name and whether it is a directory's. */
const KINDS = [
  { title: 'a directory', wants: everything },
  { title: 'by polling, as it is', options: { usePolling: true }, wants: everything },
  { title: 'cwd', paths: () => '.', options: (root) => ({ cwd: root }), wants: everything },
  { title: 'ignored: a glob', options: { ignored: '**/*.txt' }, wants: (name) => !name.endsWith('.txt') },
  {
    title: 'ignored: a directory', options: (root) => ({ ignored: [path.join(root, 'b')] }),
    wants: (name) => steps(name)[0] !== 'b',
  },
  { title: 'ignored: an expression', options: { ignored: /[/]c($|[/])/ }, wants: (name) => !steps(name).includes('c') },
  {
    title: 'ignored: a function', options: { ignored: (one, stats) => Boolean(stats) && stats.isFile() && !isJs(one) },
    wants: (name, isDirectory) => isDirectory || isJs(name),
  },
  { title: 'depth', options: { depth: 1 }, wants: (name) => steps(name).length <= 2 },
  { title: 'a glob', paths: (root) => `${root}/**/*.js`, wants: (name, isDirectory) => !isDirectory && isJs(name) },
  { title: 'no followSymlinks', options: { followSymlinks: false }, wants: everything, follows: false },
  { title: 'alwaysStat', options: { alwaysStat: true }, wants: everything },
  {
    title: 'awaitWriteFinish', options: { awaitWriteFinish: { stabilityThreshold: 150, pollInterval: 30 } },
    wants: everything,
  },
  { title: 'atomic', options: { usePolling: true, atomic: true }, wants: everything },
  { title: 'ignoreInitial', options: { ignoreInitial: true }, wants: everything },
];

/** The options of a kind for a root, beside those of a library. */
function optionsOf(kind, root, beside) {
  const own = typeof kind.options === 'function' ? kind.options(root) : kind.options;
  return { ...own, ...beside };
}

module.exports = { KINDS, optionsOf };
