'use strict';
// Globs as chokidar takes them: * ** ? [..] {a,b} @(a|b) ?(a) *(a) +(a) !(a). A star takes leading dots too.

const path = require('path');

const SPECIAL = /[*]|\{[^{}]*\}|\[[^\]/]+\]|[@?!+*]\([^()]*\)|\([^()]*\|[^()]*\)/;
const BEFORE_PARENTHESIS = '@?!+*';

/** Whether a text is a glob and no plain path. A question mark alone makes none, as in chokidar. */
function isGlob(text) {
  return SPECIAL.test(text);
}

/** The directory from which a glob goes on: its leading steps that are plain. */
function globParent(glob) {
  const steps = glob.split('/');
  const first = steps.findIndex((step) => isGlob(step) || /[{}()[\]]/.test(step));
  const plain = steps.slice(0, first < 0 ? steps.length : Math.min(first, steps.length - 1));
  if (plain.length === 1 && plain[0] === '') return '/';
  return plain.join('/') || '.';
}

/** A regular expression that fits the whole names that the glob fits. */
function globToRegExp(glob) {
  return new RegExp(`^(?:${translated(glob.replace(/^\.\//, ''))})$`, 's');
}

function translated(glob) {
  let found = '';
  for (let at = 0; at < glob.length;) {
    const [text, next] = atom(glob, at);
    found += text;
    at = next;
  }
  return found;
}

/** The regular expression of the atom at a place, and the place after it. */
function atom(glob, at) {
  const one = glob[at];
  if (one === '\\' && at + 1 < glob.length) return [escaped(glob[at + 1]), at + 2];
  if (BEFORE_PARENTHESIS.includes(one) && glob[at + 1] === '(') {
    const group = groupAt(glob, at + 1, '(', ')', '|');
    if (group) return [extended(one, group.parts, glob.slice(group.end)), group.end];
  }
  if (one === '*') return stars(glob, at);
  if (one === '?') return ['[^/]', at + 1];
  if (one === '[') return classAt(glob, at);
  if (one === '{') return braces(glob, at);
  if (one === '(') {
    const group = groupAt(glob, at, '(', ')', '|');
    if (group) return [`(?:${group.parts.map(translated).join('|')})`, group.end];
  }
  return [escaped(one), at + 1];
}

function escaped(letter) {
  return letter.replace(/[\\^$.*+?()[\]{}|/]/, '\\$&');
}

/** `**` between slashes takes any number of directories. At the end it takes the directory before it too. */
function stars(glob, at) {
  let end = at;
  while (glob[end] === '*' && glob[end + 1] !== '(') end += 1;
  if (end === at) end += 1;
  const isWhole = end - at > 1 && (at === 0 || glob[at - 1] === '/') && (end === glob.length || glob[end] === '/');
  if (!isWhole) return ['[^/]*', end];
  if (end < glob.length) return ['(?:[^/]*/)*', end + 1];
  return ['.*', end];
}

function classAt(glob, at) {
  const end = glob.indexOf(']', at + 2);
  if (end < 0) return ['\\[', at + 1];
  const body = glob.slice(at + 1, end).replace(/^!/, '^').replace(/\\(?!\w)|\[(?!:)/g, '\\$&');
  return [`(?!/)[${body}]`, end + 1];
}

function braces(glob, at) {
  const group = groupAt(glob, at, '{', '}', ',');
  if (!group) return ['\\{', at + 1];
  const range = group.parts.length === 1 && /^(-?\d+)\.\.(-?\d+)$/.exec(group.parts[0]);
  if (range) return [`(?:${numbers(Number(range[1]), Number(range[2])).join('|')})`, group.end];
  if (group.parts.length === 1) return [`\\{${translated(group.parts[0])}\\}`, group.end];
  return [`(?:${group.parts.map(translated).join('|')})`, group.end];
}

function numbers(first, last) {
  const [low, high] = first < last ? [first, last] : [last, first];
  return Array.from({ length: Math.min(high - low + 1, 1000) }, (_, index) => low + index);
}

/** What a group before which one of @?!+* is takes, if this rest of the glob follows it. */
function extended(kind, parts, rest) {
  const any = parts.map(translated).join('|');
  if (kind === '!') return `(?!(?:${any})${translated(rest)}$)[^/]*`;
  return `(?:${any})${kind === '@' ? '' : kind}`;
}

/** The parts of a group between brackets, and the place after it; nothing if it does not end. */
function groupAt(glob, at, opens, closes, between) {
  let depth = 0;
  let from = at + 1;
  const parts = [];
  for (let end = at; end < glob.length; end += 1) {
    if (glob[end] === '\\') end += 1;
    else if (glob[end] === opens) depth += 1;
    else if (glob[end] === between && depth === 1) {
      parts.push(glob.slice(from, end));
      from = end + 1;
    } else if (glob[end] === closes) {
      depth -= 1;
      if (depth === 0) return { parts: [...parts, glob.slice(from, end)], end: end + 1 };
    }
  }
  return undefined;
}

/** A function that says whether a path fits the glob. `a/**` fits `a` too. */
function globMatcher(glob) {
  const fits = globToRegExp(glob);
  const itself = glob.endsWith('/**') ? globToRegExp(glob.slice(0, -3)) : undefined;
  return (name) => {
    const plain = name.replace(/^\.\//, '');
    return fits.test(plain) || Boolean(itself && itself.test(plain));
  };
}

/** A function that says whether something in a directory could fit the glob. */
function directoryMatcher(glob, base) {
  const rest = path.relative(base, glob);
  if (/[{(]/.test(rest)) return () => true;
  const steps = rest.split('/');
  if (steps.length > 1) steps.pop();
  const fits = steps.map((step) => (step === '**' ? '**' : globToRegExp(step)));
  const deep = fits.indexOf('**');
  return (name) => {
    const parts = name.split('/');
    const compared = fits.slice(0, deep < 0 ? parts.length : Math.min(deep, parts.length));
    return compared.every((one, index) => one.test(parts[index]));
  };
}

module.exports = { directoryMatcher, globMatcher, globParent, isGlob };
