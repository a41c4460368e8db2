// Uses fb-watchman as its documentation does, and prints what it tells of a project.
const fs = require('fs');
const path = require('path');
const watchman = require('fb-watchman');

const root = process.argv[2];
const client = new watchman.Client();
const query = {fields: ['name'], expression: ['suffix', 'c']};

function command(...words) {
  return new Promise((resolve, reject) => client.command(words, (error, reply) => error ? reject(error) : resolve(reply)));
}

function nextList() {
  return new Promise(resolve => client.once('subscription', resolve));
}

function put(name) {
  const aside = path.join(path.dirname(root), 'aside');
  fs.writeFileSync(aside, 'x');
  fs.renameSync(aside, path.join(root, name));
}

async function run() {
  const has = await new Promise((resolve, reject) =>
    client.capabilityCheck({optional: ['relative_root', 'nothing']}, (error, reply) => error ? reject(error) : resolve(reply)));
  console.log(JSON.stringify(has.capabilities));
  const project = await command('watch-project', path.join(root, 'sub'));
  console.log(project.relative_path);
  const below = {...query, relative_root: project.relative_path};
  console.log(JSON.stringify((await command('query', project.watch, below)).files));
  await command('frob').catch(error => console.log(error.message));
  const {clock} = await command('clock', project.watch);
  await command('subscribe', project.watch, 's', {...below, since: clock, fields: ['name', 'exists', 'new']});
  for (const change of [() => put('sub/b.c'), () => fs.unlinkSync(path.join(root, 'sub/a.c'))]) {
    const list = nextList();
    change();
    console.log(JSON.stringify((await list).files.map(file => [file.name, file.exists, file.new])));
  }
  client.end();
}

run().catch(error => { console.log(error.message); process.exit(1); });
