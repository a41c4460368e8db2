'use strict';
// The feeds of a watcher, one for each root that it needs, and the places that they serve.

const path = require('path');
const { expressionOf } = require('./expression');
const { Feed } = require('./feed');
const hub = require('./hub');
const { Place } = require('./place');
const { directoryOfProject, nearestRoot, rootFor } = require('./roots');
const { statsOf } = require('./stats');

class Feeds {
  /**
   * @param {object} watcher
   * @param {string} project the directory in which the tool works, without links
   */
  constructor(watcher, project) {
    this.watcher = watcher;
    this.project = project;
    this.byRoot = new Map();
  }

  /** A place for a path, served by a feed of its root. */
  async placeAt(given) {
    const own = given.isPoint && directoryOfProject(given.real, this.project);
    const directory = given.isPoint ? own || path.dirname(given.real) : given.real;
    const feed = await this.feedOf(given.real, directory);
    return new Place(this.watcher, { ...given, feed });
  }

  async feedOf(real, directory) {
    const nearest = nearestRoot([...this.byRoot.keys()], real);
    if (this.byRoot.has(nearest)) return this.byRoot.get(nearest);
    const keeps = this.watcher.options.persistent;
    const session = hub.acquire(keeps);
    await session.whenTried();
    const { roots = [] } = await session.ask('watch-list');
    const root = nearest || rootFor(directory, [...this.byRoot.keys()], roots, this.project);
    if (!this.byRoot.has(root)) this.byRoot.set(root, this.feedAt(root));
    hub.release(session, keeps);
    if (this.watcher.closed) this.byRoot.get(root).close();
    return this.byRoot.get(root);
  }

  feedAt(root) {
    const { watcher } = this;
    const feed = new Feed(root, watcher.options.persistent, {
      interval: watcher.options.interval,
      opens: (name) => [...feed.places].some((place) => place.opens(name)),
      expression: () => expressionOf([...feed.places], watcher.ignoring, root),
      tell: async (changes, isThere) => {
        this.tellRaw(root, changes);
        for (const place of [...feed.places]) await place.take(changes, isThere);
      },
      fail: (fault) => watcher.faults.add(fault, root),
    });
    return feed;
  }

  tellRaw(root, changes) {
    if (this.watcher.listenerCount('raw') === 0) return;
    for (const { name, before, after } of changes) {
      const details = { curr: after && statsOf(after), prev: before && statsOf(before) };
      this.watcher.emit('raw', 'change', path.join(root, name), details);
    }
  }

  /** Whether a single file is told by one of the feeds, or by one that is made for its directory of the project. */
  covers(real) {
    return Boolean(nearestRoot([...this.byRoot.keys()], real) || directoryOfProject(real, this.project));
  }

  /** After the watcher ignores something else. */
  refresh() {
    for (const feed of this.byRoot.values()) {
      for (const place of feed.places) place.refresh();
      feed.subscribe();
    }
  }

  close() {
    for (const feed of this.byRoot.values()) feed.close();
  }
}

module.exports = { Feeds };
