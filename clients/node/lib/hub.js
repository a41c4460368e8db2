'use strict';
// The sessions of this process with the server. All its watchers share one, and take another if it has no place left.

const { defaultSockname } = require('./sockname');
const { Session } = require('./session');

// The server keeps 64 subscriptions of a session.
const MOST_SUBSCRIPTIONS = 64;

const sessions = [];
let names = 0;

/** A session with a place for one more subscription. Give it back by `release`. */
function acquire(keeps) {
  const sockname = defaultSockname();
  let found = sessions.find((one) => one.sockname === sockname && one.users < MOST_SUBSCRIPTIONS);
  if (!found) {
    found = new Session(sockname);
    sessions.push(found);
  }
  found.acquire(keeps);
  return found;
}

function release(session, keeps) {
  session.release(keeps);
  if (session.users === 0) sessions.splice(sessions.indexOf(session), 1);
}

/** A name for a subscription that no other one of this process has. */
function newName() {
  names += 1;
  return `chokidar-${names}`;
}

module.exports = { acquire, newName, release };
