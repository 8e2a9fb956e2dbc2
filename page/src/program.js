// Asking the program: each trace is run from its beginning, and what was asked before is remembered.

import {repliesOf} from './trace.js';

const KEPT_BYTES = 40e6;

export class Program {
  constructor(engine) {
    this.engine = engine;
    this.kept = new Map();
    this.size = 0;
    this.runs = 0;
  }

  // The status and the output of a run.
  answer(words, text) {
    const key = words.join(' ') + '\n' + text;
    let found = this.kept.get(key);
    if (found) {
      this.kept.delete(key);
    } else {
      this.runs += 1;
      found = this.engine.answer(words, text);
      this.size += key.length + found.text.length;
    }
    this.kept.set(key, found);
    for (const [old, result] of this.kept) {
      if (this.size < KEPT_BYTES || old === key) break;
      this.size -= old.length + result.text.length;
      this.kept.delete(old);
    }
    return found;
  }

  // The replies to commands, each with its marks.
  ask(words, commands) {
    const {text, status} = this.answer(words, commands.join('\n') + '\n');
    return Object.assign(repliesOf(text), {status});
  }
}
