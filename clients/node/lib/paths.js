'use strict';
// Paths as tools give them, in the spelling of chokidar.

const path = require('path');

/** A path without empty steps, `.` and `..` where they can be taken out. A slash at the end goes. */
function normalized(text) {
  const found = path.normalize(text).replace(/\/+/g, '/');
  return found.length > 1 ? found.replace(/\/$/, '') : found;
}

/** All texts of a path, a list of paths, or lists of them. */
function unified(paths) {
  const found = [].concat(paths === undefined ? [] : paths).flat(Infinity);
  const other = found.find((one) => typeof one !== 'string');
  if (other !== undefined) throw new TypeError(`Non-string provided as watch path: ${other}`);
  return found.map((one) => (one.startsWith('!') ? `!${normalized(one.slice(1))}` : normalized(one)));
}

/** The path from a working directory on, if one is given. */
function absolute(text, cwd) {
  if (!cwd || path.isAbsolute(text)) return text;
  return text.startsWith('!') ? `!${path.join(cwd, text.slice(1))}` : path.join(cwd, text);
}

module.exports = { absolute, normalized, unified };
