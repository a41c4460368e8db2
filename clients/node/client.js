'use strict';
// What a tool of one's own needs: a session with the server, and the place of its socket.

const { defaultSockname } = require('./lib/sockname');
const { Session } = require('./lib/session');

module.exports = { Session, defaultSockname };
