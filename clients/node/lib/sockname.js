'use strict';
// The place of the server's socket, and whether it is this user's. Node does not say whose process answers, so the
// directory has to be one to which nobody else may write.

const fs = require('fs');
const os = require('os');
const path = require('path');

const { O_DIRECTORY, O_NOFOLLOW, O_RDONLY } = fs.constants;
const SOCKET = 'wqd.sock';
const SUPERUSER = 0;
const WRITABLE_BY_OTHERS = 0o022;
const ENTERED_BY_OTHERS = 0o077;

/**
 * The socket at which `wq` looks for a server: WQD_SOCK, else `wqd.sock` in the directory of the session, else in a
 * directory of the user's own below TMPDIR or /tmp.
 * @returns {string}
 */
function defaultSockname(environment = process.env) {
  if (environment.WQD_SOCK) return path.resolve(environment.WQD_SOCK);
  const session = environment.XDG_RUNTIME_DIR || '';
  if (session && isOwnDirectory(session)) return path.join(path.resolve(session), SOCKET);
  return path.join(ownRoom(environment), SOCKET);
}

/** The directory of the user's own, if the session has none. */
function ownRoom(environment = process.env) {
  return path.join(path.resolve(environment.TMPDIR || '/tmp'), `wqd-${process.getuid()}`);
}

function isOwnDirectory(directory) {
  try {
    const found = fs.statSync(directory);
    return found.isDirectory() && found.uid === process.getuid() && !(found.mode & WRITABLE_BY_OTHERS);
  } catch {
    return false;
  }
}

/**
 * Opens the directory of a socket, and hands a path to the socket in it to a function: whoever renames directories in
 * the meantime puts no other one into its place.
 * @param {string} sockname
 * @param {(path: string) => void} use
 * @returns {() => void} closes the directory; to be called when the path is needed no more
 */
function throughOwnDirectory(sockname, use) {
  if (path.dirname(sockname) === ownRoom()) requireAlone(sockname);
  const target = fs.realpathSync(sockname);
  const directory = fs.openSync(path.dirname(target), O_RDONLY | O_DIRECTORY | O_NOFOLLOW);
  const close = () => fs.closeSync(directory);
  try {
    const found = fs.fstatSync(directory);
    if (!isOwners(found.uid) || found.mode & WRITABLE_BY_OTHERS) {
      const place = path.dirname(target);
      throw refused(sockname, `others may write to ${place}, so whose server answers there is not known`);
    }
    const inside = `/proc/self/fd/${directory}/${path.basename(target)}`;
    const socket = fs.lstatSync(inside);
    if (!socket.isSocket() || !isOwners(socket.uid)) throw refused(sockname, 'it is no socket of yours');
    use(inside);
    return close;
  } catch (fault) {
    close();
    throw fault;
  }
}

/** Refuses a directory below TMPDIR that is a link, or that others can enter: whoever came first made it. */
function requireAlone(sockname) {
  const found = fs.lstatSync(path.dirname(sockname));
  if (!found.isDirectory() || found.uid !== process.getuid() || found.mode & ENTERED_BY_OTHERS) {
    throw refused(sockname, `${path.dirname(sockname)} is no directory of yours alone`);
  }
}

function isOwners(user) {
  return user === process.getuid() || user === SUPERUSER;
}

function refused(sockname, reason) {
  return Object.assign(new Error(`${sockname}: ${reason}`), { code: 'EPERM', path: sockname });
}

/** The directory in which `wq` keeps notes: wq below XDG_STATE_HOME or ~/.local/state. */
function notesDirectory() {
  const named = stateHome();
  return path.join(named || path.join(os.homedir(), '.local', 'state'), 'wq');
}

function stateHome(environment = process.env) {
  const named = environment.XDG_STATE_HOME || '';
  return path.isAbsolute(named) ? named : '';
}

/** Whether notes may be written: with sudo the home may be that of another user, who may have put a link there. */
function mayKeepNotes() {
  try {
    return fs.statSync(stateHome() || os.homedir()).uid === process.getuid();
  } catch (fault) {
    return fault.code === 'ENOENT';
  }
}

module.exports = { defaultSockname, mayKeepNotes, notesDirectory, throughOwnDirectory };
