'use strict';
// node --require wqd-chokidar/register: what a tool gets for chokidar, watchpack and fs.watchFile.

const { spawn } = require('child_process');
const fs = require('fs');
const path = require('path');
const { HOME, PATIENCE, ask, pause, put, same, scene, server, tree } = require('./scene');

const AGAIN = 1000;

/** A tool that runs, and its lines. */
class Tool {
  constructor(root, script, words = ['--require', path.join(HOME, 'register')]) {
    put(path.join(root, 'tool.js'), script);
    this.lines = [];
    this.child = spawn(process.execPath, [...words, 'tool.js'], { cwd: root, stdio: ['ignore', 'pipe', 'inherit'] });
    this.child.stdout.on('data', (data) => this.lines.push(...String(data).split("\n")));
  }

  /**
   * Waits for a line. What causes it is done anew until it comes: when a tool begins to watch is not told.
   * @param {(turn: number) => void} act
   */
  async says(name, line, act = () => {}) {
    const end = Date.now() + PATIENCE;
    for (let turn = 0, next = 0; !this.lines.includes(line) && Date.now() < end;) {
      if (Date.now() >= next) {
        turn += 1;
        next = Date.now() + AGAIN;
        act(turn);
      }
      await pause(20);
    }
    same(name, this.lines.includes(line) ? line : this.lines, line);
    this.lines = [];
  }

  end() {
    this.child.kill();
    return new Promise((resolve) => { this.child.on('close', resolve); });
  }
}

async function chokidar() {
  const root = tree('tool', ['src/a.js']);
  const tool = new Tool(root, `const w = require('chokidar').watch('src', { usePolling: true });
w.on('all', (event, name) => console.log(event, name)); w.on('ready', () => console.log('ready'));`);
  await tool.says('a tool that requires chokidar', 'ready');
  put(path.join(root, 'src/a.js'), 'longer');
  await tool.says('hears of changes', 'change src/a.js');
  same('from the server', (await ask('watch-list')).roots, [path.join(root, 'src')]);
  await tool.end();
}

/** A module that imports the chokidar that is installed. */
async function imported() {
  const root = tree('imported', ['src/a.js']);
  const other = path.join(root, 'node_modules/chokidar/index.js');
  put(other, "exports.watch = () => { throw new Error('the other one'); };");
  put(path.join(root, 'tool.mjs'), `import { watch } from 'chokidar';
watch('src').on('ready', () => console.log('ready'));`);
  const tool = new Tool(root, "import('./tool.mjs');");
  await tool.says('an import', 'ready');
  await tool.end();
}

/** The alias of a package: a directory named chokidar that leads to this one. */
async function alias() {
  const root = tree('alias', ['src/a.js', 'node_modules/']);
  fs.symlinkSync(HOME, path.join(root, 'node_modules', 'chokidar'));
  const tool = new Tool(root, "require('chokidar').watch('src').on('ready', () => console.log('ready'));", []);
  await tool.says('an alias in node_modules', 'ready');
  await tool.end();
}

async function watchFile() {
  const root = tree('bundle', ['src/a.js', 'src/d/b.js', 'top.js']);
  const tool = new Tool(root, `const fs = require('fs');
for (const one of ['src/a.js', 'src/d', 'top.js']) {
  fs.watchFile(one, { interval: 200 }, (now, before) => console.log(one, now.size !== before.size));
}
setTimeout(() => console.log('begun'), 1500);`);
  await tool.says('a tool with fs.watchFile', 'begun');
  const longer = (name) => (turn) => put(path.join(root, name), 'longer'.repeat(1 + turn));
  await tool.says('a file', 'src/a.js true', longer('src/a.js'));
  await tool.says('a directory', 'src/d false', (turn) => put(path.join(root, `src/d/new${turn}.js`)));
  await tool.says('a file of no root, by Node itself', 'top.js true', longer('top.js'));
  await tool.end();
}

/** webpack's watchpack, if it is installed. */
async function watchpack() {
  try {
    require.resolve('watchpack');
  } catch {
    process.stdout.write('left out: watchpack, since it is not installed\n');
    return;
  }
  const root = tree('packed', ['src/a.js', 'src/d/b.js']);
  const tool = new Tool(root, `const Watchpack = require('watchpack'), path = require('path');
const w = new Watchpack({ aggregateTimeout: 20, poll: 60000 });
const [file, directory, no] = ['src/a.js', 'src/d', 'src/no.js'].map((one) => path.resolve(one));
const names = (found) => [...found].map((one) => path.relative('.', one)).join(' ');
w.watch({ files: [file], directories: [directory], missing: [no], startTime: Date.now() });
w.on('aggregated', (changes, removals) => console.log('changed ' + names(changes) + ', gone ' + names(removals)));
setTimeout(() => console.log('begun'), 2000);`);
  await tool.says('watchpack', 'begun');
  const longer = (name) => (turn) => put(path.join(root, name), 'longer'.repeat(1 + turn));
  await tool.says('a file changes', 'changed src/a.js, gone ', longer('src/a.js'));
  const more = (turn) => put(path.join(root, `src/d/e/new${turn}.js`));
  await tool.says('a directory has more', 'changed src/d, gone ', more);
  await tool.says('a file comes that was missing', 'changed src/no.js, gone ', longer('src/no.js'));
  server.kill();
  fs.unlinkSync(path.join(root, 'src/a.js'));
  await tool.says('a file goes while no server runs', 'changed , gone src/a.js');
  await tool.end();
}

scene(chokidar, imported, alias, watchFile, watchpack);
