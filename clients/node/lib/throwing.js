'use strict';
// An error of a tool's own listener: it is thrown as from any event, and what comes after it goes on.

/** @param {unknown} fault */
function throwAlone(fault) {
  process.nextTick(() => { throw fault; });
}

module.exports = { throwAlone };
