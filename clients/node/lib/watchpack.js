'use strict';
// webpack's watchpack: its directories hear of changes from the server, in place of polling or inotify.

// How often watchpack looks if the option `poll` is only true, in milliseconds.
const USUAL_POLL = 5007;

/**
 * A class in place of watchpack's DirectoryWatcher. It still reads its directory at the beginning.
 * @param {any} DirectoryWatcher watchpack's
 * @param {import('./source').Source} source tells changes below the project
 */
function served(DirectoryWatcher, source) {
  return class extends DirectoryWatcher {
    createWatcher() {
      if (!source.covers(this.path)) {
        super.createWatcher();
        return;
      }
      this.polledWatching = false;
      const leave = source.join(this.path, {
        changed: (name, comesOrGoes, isDirectory) => {
          // watchpack hears of what is in a directory from the directory's own watcher.
          if (comesOrGoes || !isDirectory) this.onWatchEvent(comesOrGoes ? 'rename' : 'change', name);
        },
        // What changed before the server told of changes is found by one more look.
        begun: () => this.doScan(false),
        went: () => this.onDirectoryRemoved('directory went'),
        failed: () => this.lookByItself(),
      });
      this.watcher = { close: leave };
    }

    /** Without a server it does as it would alone. */
    lookByItself() {
      if (this.closed || !this.watcher) return;
      this.watcher.close();
      const { poll } = this.options;
      this.polledWatching = poll === true ? USUAL_POLL : poll || false;
      super.createWatcher();
      this.doScan(false);
    }
  };
}

module.exports = { served };
