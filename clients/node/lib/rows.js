'use strict';
// The files of the lists of one subscription, by their names.

class Rows extends Map {
  /** Takes a file in; gives its name, what it was and what it is: undefined if it was not or is not there. */
  put(file) {
    const before = this.get(file.name);
    const after = file.exists ? { kind: file.type, size: file.size, mtimeMs: file.mtime_ms } : undefined;
    if (after) this.set(file.name, after);
    else this.delete(file.name);
    return { name: file.name, before, after };
  }

  /** Takes a list of all files in: those that it does not have are gone. All of them are given, changed or not. */
  replace(files) {
    const names = new Set(files.map((file) => file.name));
    const gone = [...this.keys()].filter((name) => !names.has(name)).map((name) => ({ name, exists: false }));
    return [...gone, ...files].map((file) => this.put(file));
  }
}

/** Whether a change is one: a list of all files has those too that are as before. */
function isOther({ before, after }) {
  if (!before || !after) return Boolean(before || after);
  return before.kind !== after.kind || before.size !== after.size || before.mtimeMs !== after.mtimeMs;
}

module.exports = { Rows, isOther };
