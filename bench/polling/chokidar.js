// chokidar.js ROOT MS [PACKAGE]: watches a tree by polling, and prints `ready` and then the path of each file that changed.
// PACKAGE is one with chokidar's API in its place.

const [root, interval, library] = process.argv.slice(2);
const chokidar = require(library || "chokidar");
const settings = { usePolling: true, interval: Number(interval), ignoreInitial: true };
const watcher = chokidar.watch(root, settings);
watcher.on("ready", () => process.stdout.write("ready\n"));
for (const change of ["add", "change"]) watcher.on(change, (path) => process.stdout.write(`${path}\n`));
