'use strict';
// The options of a watcher, with chokidar's values for those that are left out.

const DEFAULTS = {
  persistent: true, ignoreInitial: false, ignorePermissionErrors: false, interval: 100, binaryInterval: 300,
  disableGlobbing: false, followSymlinks: true, alwaysStat: false,
};
const STABLE = 2000;
const POLL = 100;

/** @returns {object} a frozen object of its own */
function optionsOf(given = {}, environment = process.env) {
  /** @type {any} */
  const options = { ...DEFAULTS };
  for (const [key, value] of Object.entries(given || {})) if (value !== undefined) options[key] = value;
  const polls = environment.CHOKIDAR_USEPOLLING;
  if (polls !== undefined) options.usePolling = polls !== '' && !['false', '0'].includes(polls.toLowerCase());
  options.interval = Number.parseInt(environment.CHOKIDAR_INTERVAL, 10) || options.interval;
  if (options.atomic === undefined) options.atomic = !options.usePolling;
  if (options.awaitWriteFinish) {
    const finish = options.awaitWriteFinish === true ? {} : options.awaitWriteFinish;
    options.awaitWriteFinish = {
      stabilityThreshold: finish.stabilityThreshold || STABLE, pollInterval: finish.pollInterval || POLL,
    };
  }
  return Object.freeze(options);
}

module.exports = { optionsOf };
