// Watches a directory with sane by Watchman, and prints the events. It changes nothing, and goes on until it is ended.
const sane = require('sane');

const watcher = sane(process.argv[2], {watchman: true, glob: ['**/*.js']});
for (const event of ['add', 'change', 'delete']) {
  watcher.on(event, name => console.log(`${event} ${name}`));
}
watcher.on('ready', () => console.log('ready'));
watcher.on('error', error => console.log(`error ${error.message}`));
