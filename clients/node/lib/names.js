'use strict';
// Names of files below a root, as the server lists them.

/**
 * Whether a name stays below its root: steps that are not empty, `.` or `..`, without byte 0.
 * @param {unknown} name
 */
function staysBelow(name) {
  if (typeof name !== 'string' || name.includes('\0')) return false;
  return name.split('/').every((step) => step !== '' && step !== '.' && step !== '..');
}

/** The name of a path below a root: "" for the root itself, and undefined for what is not below it. */
function nameBelow(root, path) {
  if (path === root) return '';
  const front = root === '/' ? '/' : `${root}/`;
  return path.startsWith(front) ? path.slice(front.length) : undefined;
}

module.exports = { nameBelow, staysBelow };
