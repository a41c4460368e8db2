'use strict';
// An fs.Stats of what the server says of a file: its kind, size and modification time, and nothing else.

const fs = require('fs');

const { S_IFBLK, S_IFCHR, S_IFDIR, S_IFIFO, S_IFLNK, S_IFREG, S_IFSOCK } = fs.constants;
const MODES = { f: S_IFREG, d: S_IFDIR, l: S_IFLNK, b: S_IFBLK, c: S_IFCHR, p: S_IFIFO, s: S_IFSOCK };

/**
 * @param {{kind: string, size: number, mtimeMs: number, stats?: object}} row with the fs.Stats, if Node read one
 * @returns {any} an fs.Stats with `mode` (the kind alone), `size`, `mtimeMs` and `mtime`
 */
function statsOf(row) {
  if (row.stats) return row.stats;
  const found = Object.create(fs.Stats.prototype);
  const values = { mode: MODES[row.kind] || 0, size: row.size, mtimeMs: row.mtimeMs, mtime: new Date(row.mtimeMs) };
  for (const [key, value] of Object.entries(values)) {
    Object.defineProperty(found, key, { value, enumerable: true, writable: true, configurable: true });
  }
  return found;
}

/** The row of an fs.Stats that Node read. */
function rowOf(stats) {
  const kind = stats.isDirectory() ? 'd' : stats.isSymbolicLink() ? 'l' : stats.isFile() ? 'f' : '?';
  return { kind, size: stats.size, mtimeMs: Math.floor(stats.mtimeMs), stats };
}

module.exports = { rowOf, statsOf };
