'use strict';
// Notes of the roots that tools had the server watch, in the form of `wq`. So a root that nobody needs can be given up
// when 16 are watched, by `wq`, by other adapters and by this package.

const crypto = require('crypto');
const fs = require('fs');
const path = require('path');
const { runAt, runOf } = require('./owner');
const { mayKeepNotes, notesDirectory } = require('./sockname');

// `wq` has these words for a root that is needed while a window is open, and for one that was asked about some times.
const WINDOW = 'window';
const DROPPABLE = [WINDOW, 'kept'];
const LONGEST = 65_536;
const OWN_ROOTS = 'own-roots';

class Notes {
  constructor(sockname) {
    this.sockname = sockname;
    this.run = runAt(sockname);
    this.own = runOf(process.pid);
  }

  pathOf(kind, root) {
    return pathOf(kind, this.sockname, root);
  }

  /** The note of a root in this run of the server; {} if there is none. */
  of(root) {
    const note = noteIn(this.pathOf('roots', root));
    return this.run && note.run === this.run ? note : {};
  }

  /** Notes that this process had a root watched. */
  keep(root) {
    this.write(root, { run: this.run, for: WINDOW, asked: Date.now() / 1000, process: this.own });
  }

  forget(root) {
    this.write(root, {});
  }

  write(root, note) {
    if (!this.run || !mayKeepNotes()) return;
    const file = this.pathOf('roots', root);
    try {
      fs.mkdirSync(path.dirname(file), { recursive: true, mode: 0o700 });
      if (fs.lstatSync(path.dirname(file)).uid !== process.getuid()) return;
      const aside = `${file}.${process.pid}`;
      fs.writeFileSync(aside, JSON.stringify(note), { mode: 0o600, flag: 'wx' });
      fs.renameSync(aside, file);
    } catch {
      // Without a note the root stays watched, and nothing else is lost.
    }
  }

  /** Whether this process had the root watched, and nobody needed it later. */
  isOwn(root) {
    return this.of(root).process === this.own && !this.isOpen(root);
  }

  /** Of some roots those that nobody needs any more, the one first that was asked about least lately. */
  droppable(roots) {
    const notes = roots.map((root) => ({ root, ...this.of(root) })).filter((note) => DROPPABLE.includes(note.for));
    const free = notes.filter((note) => !isAlive(note.process) && !this.isOpen(note.root));
    return free.sort((one, other) => one.asked - other.asked).map((note) => note.root);
  }

  /** Whether a window of `wq`, or another adapter, has the root open: then its file is locked. */
  isOpen(root) {
    try {
      const { ino } = fs.lstatSync(this.pathOf('windows', root));
      return fs.readFileSync('/proc/locks', 'utf8').split(/\s+/).some((word) => word.endsWith(`:${ino}`));
    } catch {
      return false;
    }
  }
}

/** The nearest directory, at or above one without links, that `wq watch --root` made a root of its own. */
function ownRootOf(directory) {
  if (!fs.existsSync(path.join(notesDirectory(), OWN_ROOTS))) return undefined;
  for (let at = directory; ; at = path.dirname(at)) {
    if (noteIn(pathOf(OWN_ROOTS, at)).root === true) return at;
    if (at === path.dirname(at)) return undefined;
  }
}

function pathOf(kind, ...parts) {
  const name = crypto.createHash('sha256').update(parts.join('\0')).digest('hex').slice(0, 32);
  return path.join(notesDirectory(), kind, name);
}

/** The object that a file of this user holds; {} if it holds none. */
function noteIn(file) {
  try {
    const note = isOwnFile(file) && JSON.parse(fs.readFileSync(file, 'utf8'));
    return note || {};
  } catch {
    return {};
  }
}

function isOwnFile(file) {
  const found = fs.lstatSync(file);
  return found.isFile() && found.uid === process.getuid() && found.size <= LONGEST;
}

function isAlive(run) {
  return typeof run === 'string' && runOf(run.split(':')[0]) === run;
}

module.exports = { Notes, ownRootOf };
