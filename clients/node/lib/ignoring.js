'use strict';
// The paths that a watcher leaves out: its option `ignored`, paths that begin with `!`, and what was unwatched.

const path = require('path');
const { globMatcher, isGlob } = require('./globs');
const { normalized } = require('./paths');

// Files that editors write beside a file, as chokidar has them for `atomic`.
const OF_EDITORS = /\..*\.(sw[px])$|~$|\.subl.*\.tmp/;

class Ignoring {
  constructor(options) {
    this.options = options;
    this.unwatched = new Set();
    this.given = [].concat(options.ignored ?? []).flat(Infinity);
    this.refresh();
  }

  /** Texts are taken as paths from the option `cwd`. */
  text(given) {
    return normalized(path.isAbsolute(given) ? given : path.join(this.options.cwd || '', given));
  }

  refresh() {
    const texts = [...this.unwatched, ...this.given.filter((one) => typeof one === 'string')];
    this.negated = texts.filter((text) => text.startsWith('!')).map((text) => globMatcher(this.text(text.slice(1))));
    const plain = texts.filter((text) => !text.startsWith('!')).map((text) => this.text(text));
    this.paths = plain.filter((text) => !isGlob(text));
    this.globs = plain.filter(isGlob);
    this.matchers = this.globs.map(globMatcher);
    this.tests = this.given.filter((one) => typeof one === 'function' || one instanceof RegExp);
  }

  leaveOut(text) {
    this.unwatched.add(text);
    this.refresh();
  }

  takeIn(text) {
    if (this.unwatched.delete(text)) this.refresh();
  }

  /**
   * Whether a path is left out, whatever the directories above it are.
   * @param {string} name as events have it, before `cwd` is taken from it
   * @param {object} [stats]
   */
  has(name, stats) {
    if (this.options.atomic && OF_EDITORS.test(name)) return true;
    if (this.negated.some((fits) => fits(name))) return false;
    return this.paths.some((one) => name === one || name.startsWith(`${one}/`))
      || this.matchers.some((fits) => fits(name))
      || this.tests.some((test) => fitsTest(test, name, stats));
  }
}

function fitsTest(test, name, stats) {
  if (typeof test === 'function') return Boolean(test(name)) || Boolean(stats && test(name, stats));
  test.lastIndex = 0;
  return test.test(name);
}

module.exports = { Ignoring };
