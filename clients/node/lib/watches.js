'use strict';
// Which roots the server watches for a session, and which it is to watch no longer.

const TOO_MANY = 'E13';

/**
 * Has the server watch a root. If it watches as many as it may, one that nobody needs is given up.
 * @param {import('./session').Session} session
 * @param {string} root
 * @returns {Promise<object>} the reply; `isNew` in it says whether the root was scanned just now
 */
async function watch(session, root) {
  const { roots = [] } = await session.ask('watch-list');
  let reply = await session.ask('watch', root);
  if (reply.error && reply.error.startsWith(TOO_MANY)) {
    for (const one of session.notes.droppable(roots)) {
      if (!(await giveUp(session, one))) continue;
      reply = await session.ask('watch', root);
      if (!reply.error) break;
    }
  }
  const isNew = !roots.includes(root);
  if (!reply.error && isNew) session.notes.keep(root);
  return { ...reply, isNew };
}

/** Ends the watch of a root, unless it has triggers: whether that was done. */
async function giveUp(session, root) {
  const { triggers } = await session.ask('trigger-list', root);
  if (!triggers || triggers.length > 0) return false;
  const reply = await session.ask('watch-del', root);
  if (!reply.error) session.notes.forget(root);
  return !reply.error;
}

/** Gives a root back that this process had watched, if no other feed and nobody else needs it. */
async function giveBack(session, root) {
  if ([...session.lists.values()].some((feed) => feed.root === root)) return;
  if (session.isUp() && session.notes.isOwn(root)) await giveUp(session, root);
}

module.exports = { giveBack, watch };
