// The program behind a store: its words, the lines that it is sent, and those that it answers.

import { spawn } from 'node:child_process';
import { StoreFailed } from './errors.js';

// The options of a run, as the program calls them.
const OPTIONS = ['partitions', 'window', 'memory', 'names', 'docs', 'merge', 'limit'];

/** The words of a run over a folder. An option that is not given is left to the program. */
export function wordsOf(folder, options) {
  const words = [folder, 'run'];
  for (const name of OPTIONS) {
    if (options[name] !== undefined) words.push(`--${name}`, String(options[name]));
  }
  return words;
}

/** Starts a program. `onLine` gets each line that it writes, and `onEnd` the error of how it ended, null for status 0. */
export function start(program, words, onLine, onEnd) {
  const child = spawn(program, words, { stdio: ['pipe', 'pipe', 'pipe'] });
  let cause;
  let text = '';
  child.on('error', (error) => {
    cause = error;
  });
  // Where the program is gone, its end says more than the broken pipe does.
  child.stdin.on('error', () => {});
  child.stderr.setEncoding('utf8').on('data', (part) => {
    text += part;
  });
  child.stdout.setEncoding('utf8').on('data', linesTo(onLine));
  child.on('close', (status, signal) => {
    const isWell = status === 0 && !cause;
    onEnd(isWell ? null : new StoreFailed({ status: cause ? null : status, signal, text, cause }));
  });
  return child;
}

// Puts the parts of a stream together to lines. Long lines come in many parts, which are joined once.
function linesTo(onLine) {
  let parts = [];
  return (part) => {
    let start = 0;
    for (let end = part.indexOf('\n'); end >= 0; end = part.indexOf('\n', start)) {
      parts.push(part.slice(start, end));
      onLine(parts.join(''));
      parts = [];
      start = end + 1;
    }
    if (start < part.length) parts.push(part.slice(start));
  };
}
