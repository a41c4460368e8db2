'use strict';
// Drawn histories of a tree: the steps of one are the same for every library.

const fs = require('fs');
const path = require('path');

const DIRECTORIES = ['a', 'b', 'a/c', 'b/d'];
const FILES = ['one.js', 'two.js', 'three.txt', 'four.js', 'b.txt'];
const MOST_STEPS = 14;
const LONGEST_PAUSE = 400;
const BURST = 20;

/** Numbers from 0 to 1 that a seed determines. */
function drawing(seed) {
  let state = seed >>> 0;
  return () => {
    state = (state + 0x6d2b79f5) >>> 0;
    let mixed = Math.imul(state ^ (state >>> 15), state | 1);
    mixed ^= mixed + Math.imul(mixed ^ (mixed >>> 7), mixed | 61);
    return ((mixed ^ (mixed >>> 14)) >>> 0) / 4294967296;
  };
}

/** A tree at `root`, a second one beside it to which links lead, and steps that change both. */
class History {
  constructor(room, seed, restart) {
    this.root = path.join(room, 'root');
    this.outside = path.join(room, 'outside');
    this.draw = drawing(seed);
    this.restart = restart;
    this.steps = [];
    this.writes = 0;
    this.written = new Map();
    this.existed = new Set();
    for (const one of [this.root, this.outside, path.join(this.outside, 'x')]) fs.mkdirSync(one);
    for (const one of ['a', 'a/c', 'b']) fs.mkdirSync(path.join(this.root, one));
    for (const one of ['one.js', 'a/two.js', 'a/c/three.txt', 'b/b.txt']) this.write(path.join(this.root, one));
    this.write(path.join(this.outside, 'x', 'o.js'));
    this.note();
  }

  pick(list) {
    return list[Math.floor(this.draw() * list.length)];
  }

  file() {
    return path.join(this.root, this.draw() < 0.3 ? '' : this.pick(DIRECTORIES), this.pick(FILES));
  }

  directory() {
    return path.join(this.root, this.pick(DIRECTORIES));
  }

  /** A file gets other content. No two have one length: who polls does not see a file in the place of its like. */
  write(file) {
    this.writes += 1;
    fs.writeFileSync(file, 'x'.repeat(this.writes));
    this.written.set(file, Date.now());
  }

  rename(from, to) {
    fs.accessSync(from);
    if (from === to) return;
    fs.renameSync(from, to);
    this.written.set(to, Date.now());
  }

  /** As an editor does: a file beside it takes its place. */
  save(file) {
    this.write(`${file}~`);
    this.note();
    fs.renameSync(`${file}~`, file);
    this.written.set(file, Date.now());
  }

  burst(directory) {
    for (let number = 0; number < BURST; number += 1) this.write(path.join(directory, `n${number}.js`));
  }

  change() {
    const kinds = {
      write: () => this.write(this.file()),
      append: () => { const file = this.file(); fs.accessSync(file); this.write(file); },
      save: () => this.save(this.file()),
      rename: () => this.rename(this.file(), this.file()),
      remove: () => fs.unlinkSync(this.file()),
      again: () => { const file = this.file(); fs.unlinkSync(file); this.write(file); },
      mkdir: () => fs.mkdirSync(this.directory()),
      rmdir: () => fs.rmSync(this.directory(), { recursive: true }),
      move: () => fs.renameSync(this.directory(), this.directory()),
      burst: () => this.burst(this.directory()),
      link: () => fs.symlinkSync(path.join(this.root, 'one.js'), path.join(this.directory(), 'link.js')),
      enter: () => fs.symlinkSync(path.join(this.outside, 'x'), path.join(this.directory(), 'far')),
      unlink: () => fs.unlinkSync(path.join(this.directory(), this.pick(['far', 'link.js']))),
      outside: () => this.write(path.join(this.outside, 'x', this.pick(['o.js', 'p.js']))),
      restart: () => this.restart(),
    };
    const kind = this.pick(Object.keys(kinds));
    try {
      kinds[kind]();
      this.steps.push(kind);
      return true;
    } catch (fault) {
      if (!fault.code) throw fault;
      return false;
    }
  }

  /** Makes the steps, with pauses between. */
  async run(pause) {
    const steps = 3 + Math.floor(this.draw() * MOST_STEPS);
    while (this.steps.length < steps) {
      if (!this.change()) continue;
      this.note();
      if (this.draw() < 0.6) await pause(this.draw() * LONGEST_PAUSE);
      this.note();
    }
  }

  /** Keeps in mind which paths were ever there, also by a link. */
  note() {
    for (const follows of [true, false]) for (const name of walked(this.root, follows).keys()) this.existed.add(name);
  }
}

/** The files and directories below a root, by their names from there: "" is the root itself. */
function walked(root, follows, name = '', found = new Map()) {
  const whole = path.join(root, name);
  let stats;
  try {
    stats = (follows ? fs.statSync : fs.lstatSync)(whole);
  } catch {
    return found;
  }
  found.set(name, stats.isDirectory() ? 'directory' : 'file');
  if (stats.isDirectory()) {
    for (const one of fs.readdirSync(whole)) walked(root, follows, path.join(name, one), found);
  }
  return found;
}

module.exports = { History, drawing, walked };
