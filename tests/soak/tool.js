'use strict';
// A client of the soak: follows a directory by wqd-client or wqd-chokidar, and prints each list or event as JSON.

const { Session, defaultSockname } = require('../../clients/node/client');
const { watch } = require('../../clients/node');

const say = (value) => process.stdout.write(`${JSON.stringify(value)}\n`);

function subscribe(root) {
  const query = { expression: ['type', 'f'], fields: ['name', 'exists'] };
  const session = new Session(defaultSockname());
  const begin = async () => {
    for (const command of [['watch', root], ['subscribe', root, 'soak', query]]) {
      const { error = '' } = await session.ask(...command);
      if (error) return void (/^ended/.test(error) || setTimeout(begin, 500));
    }
  };
  session.lists.set('soak', { take(changes) {
    if (changes.canceled) return begin();
    query.since = changes.clock;
    say({ fresh: changes.is_fresh_instance, files: changes.files });
  } });
  session.on('up', begin).acquire(true);
}

function listen(root) {
  const tell = (exists) => (path) => say({ fresh: false, files: [{ name: path.slice(root.length + 1), exists }] });
  watch(root).on('add', tell(true)).on('unlink', tell(false));
}

const [kind, root] = process.argv.slice(2);
(kind === 'chokidar' ? listen : subscribe)(root);
