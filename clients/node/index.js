'use strict';
// chokidar's API, answered by one file watch server for all tools.

const { FSWatcher } = require('./lib/watcher');

/**
 * Watches files, directories and globs.
 * @param {string|string[]} paths what to watch, as chokidar takes it
 * @param {object} [options] chokidar's options
 * @returns {FSWatcher} emits `add addDir change unlink unlinkDir ready raw error all`
 */
function watch(paths, options) {
  return new FSWatcher(options).add(paths);
}

module.exports = { FSWatcher, watch };
