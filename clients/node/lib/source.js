'use strict';
// Tells which names in a directory of the project changed, for tools that look at directories by themselves.

const fs = require('fs');
const path = require('path');
const { Feed } = require('./feed');
const { nameBelow } = require('./names');
const { ownRootOf } = require('./notes');
const { directoryOfProject } = require('./roots');
const { isOther } = require('./rows');

// With more directories of one root its whole list is asked for.
const MOST_TERMS = 1000;
// While the server has no place, this process looks each so many milliseconds.
const INTERVAL = 100;

class Source {
  /** @param {string} project the directory in which the tool works; below it each first directory is a root */
  constructor(project) {
    this.project = realOf(project);
    this.feeds = new Map();
    this.covered = new Set();
    this.isTold = false;
  }

  /** Whether the server can tell of a directory: it lies below the project, and by no link. */
  covers(directory) {
    if (this.covered.has(directory)) return true;
    if (!this.rootOf(directory)) return false;
    try {
      const isCovered = fs.realpathSync(directory) === directory && fs.statSync(directory).isDirectory();
      if (isCovered) this.covered.add(directory);
      return isCovered;
    } catch {
      return false;
    }
  }

  rootOf(directory) {
    const root = this.project === '/' ? undefined : directoryOfProject(path.join(directory, 'any'), this.project);
    return root && (ownRootOf(directory) || root);
  }

  /**
   * Tells changes in a directory.
   * @param {string} directory one that is covered
   * @param {object} listener `changed(name, comesOrGoes, isDirectory)`; `begun()` when the server tells changes from
   *   now on; `went()` when the directory is gone; `failed()` if no server tells them
   * @returns {() => void} ends that
   */
  join(directory, listener) {
    const root = this.rootOf(directory);
    const feed = this.feeds.get(root) || this.begin(root);
    const place = { below: nameBelow(root, directory), listener, isBegun: false, isEnded: false };
    feed.join(place);
    feed.listedOnce().then((isListed) => {
      if (place.isEnded) return;
      place.isBegun = isListed;
      if (isListed) listener.begun();
      else listener.failed();
    });
    return () => this.leave(root, place);
  }

  leave(root, place) {
    place.isEnded = true;
    const feed = this.feeds.get(root);
    if (!feed || !feed.places.delete(place) || feed.places.size > 0) return;
    // A tool may leave a directory and join it at once.
    setImmediate(() => {
      if (feed.places.size > 0 || this.feeds.get(root) !== feed) return;
      this.feeds.delete(root);
      feed.close();
    });
  }

  begin(root) {
    const feed = new Feed(root, true, {
      interval: INTERVAL,
      expression: () => expressionOf(feed),
      opens: (name) => [...feed.places].some(({ below }) => nameBelow(name, below) !== undefined),
      tell: async (changes, isThere) => tell(feed, changes, isThere),
      fail: (fault) => this.fail(feed, fault),
    });
    this.feeds.set(root, feed);
    return feed;
  }

  fail(feed, fault) {
    if (!this.isTold) process.emitWarning(`wqd-chokidar: ${fault.message}; the tool looks at files by itself`);
    this.isTold = true;
    for (const place of [...feed.places]) if (!place.isEnded && place.isBegun) place.listener.failed();
  }
}

/** A directory without links. Without one nothing is covered. */
function realOf(directory) {
  try {
    return fs.realpathSync(directory);
  } catch {
    return '/';
  }
}

/** The files in the joined directories, and these directories. */
function expressionOf(feed) {
  const names = [...new Set([...feed.places].map((place) => place.below))];
  if (names.length > MOST_TERMS) return 'true';
  const inside = names.map((name) => ['dirname', name, ['depth', 'eq', 0]]);
  return ['anyof', ['name', names.filter((name) => name !== ''), 'wholename'], ...inside];
}

function tell(feed, changes, isThere) {
  const places = new Map();
  for (const place of feed.places) {
    if (!place.isBegun) continue;
    if (!isThere) place.listener.went();
    else places.set(place.below, [...(places.get(place.below) || []), place]);
  }
  for (const { name, before, after } of changes.filter(isOther)) {
    const isDirectory = (after || before).kind === 'd';
    const above = name.includes('/') ? name.slice(0, name.lastIndexOf('/')) : '';
    for (const { listener } of places.get(above) || []) {
      listener.changed(path.basename(name), !before || !after, isDirectory);
    }
    if (!after) for (const place of places.get(name) || []) place.listener.went();
  }
}

module.exports = { Source };
