'use strict';
// node --require wqd-chokidar/register TOOL: the tool's chokidar is this package, webpack's watchpack hears of changes
// from the server, and so does what calls fs.watchFile.

const Module = require('module');
const { Source } = require('./lib/source');
const { served } = require('./lib/watchpack');
const { patchWatchFile } = require('./lib/watchfile');

const OF_CHOKIDAR = /[/\\]chokidar[/\\]index\.js$/;
const DIRECTORIES = /[/\\]watchpack[/\\]lib[/\\]DirectoryWatcher\.js$/;

const source = new Source('.');
const load = Module._load;
const compile = Module._extensions['.js'];

/** A tool that requires chokidar gets this package, also if there is no other. */
Module._load = function loaded(request, ...rest) {
  return request === 'chokidar' ? require('.') : load.call(this, request, ...rest);
};

/** Modules that import chokidar, and those that name its file, come by here. */
Module._extensions['.js'] = function compiled(module, filename) {
  if (OF_CHOKIDAR.test(filename)) {
    module.exports = require('.');
    return;
  }
  compile(module, filename);
  if (DIRECTORIES.test(filename)) module.exports = Object.assign(served(module.exports, source), module.exports);
};

patchWatchFile(source);
Module.syncBuiltinESMExports();
