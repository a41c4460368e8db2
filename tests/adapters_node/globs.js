'use strict';
// Globs, which have to fit what chokidar's fit.

const path = require('path');
const { HOME, same } = require('./scene');
const { directoryMatcher, globMatcher, globParent, isGlob } = require(path.join(HOME, 'lib', 'globs'));

/** @type {[string, string[], string[]][]} a glob, what it fits, and what not */
const FITS = [
  ['*.js', ['a.js', '.a.js'], ['a/b.js', 'a.ts']],
  ['**/*.js', ['a.js', 'a/b.js', '/x/a.js', 'a/.b/c.js'], ['a.jsx']],
  ['a/**', ['a', 'a/b', 'a/b/c', 'a/.b'], ['ab', 'b/a']],
  ['a/**/c', ['a/c', 'a/b/c', 'a/b/b/c'], ['a/bc', 'ac']],
  ['a/*/c', ['a/b/c'], ['a/c', 'a/b/b/c']],
  ['?.js', ['a.js'], ['ab.js', '/.js']],
  ['[a-c].js', ['b.js'], ['d.js', '[a-c].js']],
  ['[!a].js', ['b.js'], ['a.js']],
  ['*.{js,ts}', ['a.js', 'a.ts'], ['a.css', 'a.{js,ts}']],
  ['{a,b/c}/*.js', ['a/x.js', 'b/c/x.js'], ['b/x.js']],
  ['f{1..3}', ['f1', 'f3'], ['f4', 'f0']],
  ['@(a|b).js', ['a.js', 'b.js'], ['c.js', 'ab.js']],
  ['!(a).js', ['b.js', 'ab.js'], ['a.js']],
  ['+(ab).js', ['ab.js', 'abab.js'], ['.js', 'a.js']],
  ['*(a)b', ['b', 'aab'], ['cb']],
  ['?(a)b', ['b', 'ab'], ['aab']],
  ['a\\*b', ['a*b'], ['axb']],
  ['./a.js', ['a.js'], ['b.js']],
  ['a+(b).js', ['ab.js', 'abb.js'], ['a.js']],
];
const PARENTS = [['src/**/*.js', 'src'], ['*.js', '.'], ['/a/b/*', '/a/b'], ['a/{b,c}/d', 'a'], ['/*', '/']];

for (const [glob, fits, others] of FITS) {
  same(`${glob} fits`, fits.filter(globMatcher(glob)), fits);
  same(`${glob} fits no others`, others.filter(globMatcher(glob)), []);
}
for (const [glob, parent] of PARENTS) same(`the parent of ${glob}`, globParent(glob), parent);
same('globs', ['*', 'a{b,c}', 'a[bc]', '!(a)', '@(a|b)'].every(isGlob), true);
same('plain paths', ['a.js', 'a/b', 'what?', '.env', 'a-b_c'].some(isGlob), false);
const mayHold = directoryMatcher('src/a*/b/*.js', 'src');
same('directories on the way', ['ax', 'ax/b', 'b', 'ax/c'].map(mayHold), [true, true, false, false]);
process.stdout.write('end\n');
