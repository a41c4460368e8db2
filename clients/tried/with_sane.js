// Watches a directory with sane by Watchman, changes files, and prints the events.
const fs = require('fs');
const path = require('path');
const sane = require('sane');

const root = path.join(process.argv[2], 'sub');
const watcher = sane(root, {watchman: true, glob: ['**/*.js']});
const changes = [
  () => put('b.js', 'x'),
  () => { put('b.c', 'x'); put('b.js', 'xx'); },
  () => fs.unlinkSync(path.join(root, 'a.js')),
];

function put(name, text) {
  const aside = path.join(path.dirname(path.dirname(root)), 'aside');
  fs.writeFileSync(aside, text);
  fs.renameSync(aside, path.join(root, name));
}

function next(line) {
  console.log(line);
  const change = changes.shift();
  if (change) {
    change();
  } else {
    watcher.close();
    process.exit(0);
  }
}

watcher.on('ready', () => next('ready'));
watcher.on('add', name => next(`add ${name}`));
watcher.on('change', name => next(`change ${name}`));
watcher.on('delete', name => next(`delete ${name}`));
watcher.on('error', error => { console.log(error.message); process.exit(1); });
setTimeout(() => { console.log('nothing comes any more'); process.exit(1); }, 60000);
