// A run that takes too long is stopped: the program is asked for the time as often as it asks for more of the trace, and it gets no
// more than one recovery at once.

import {Engine} from './engine.js';

const MOST_BYTES = 2048;
// A pause of the whole browser, as on a busy machine, counts as this many milliseconds of the run.
const MOST_OF_A_PAUSE = 1000;

// Why a run was stopped.
export class TookTooLong extends Error {}

export class BoundedEngine extends Engine {
  constructor(module, most) {
    super(module);
    this.most = most;
  }

  // What the program asks of its C library, with fewer bytes at once and a look at the clock.
  host() {
    const host = super.host();
    return {...host, read: (file, to, room) => {
      const now = performance.now();
      this.took += Math.min(now - this.asked, MOST_OF_A_PAUSE);
      this.asked = now;
      if (this.took > this.most) throw new TookTooLong(`stopped after ${this.most} ms`);
      const wanted = Math.min(Number(room), MOST_BYTES, this.nextStop());
      return host.read(file, to, typeof room === 'bigint' ? BigInt(wanted) : wanted);
    }};
  }

  // How many bytes follow up to the end of the next line that may take long.
  nextStop() {
    while (this.stops.length && this.stops[0] <= this.at) this.stops.shift();
    return this.stops.length ? this.stops[0] - this.at : MOST_BYTES;
  }

  answer(words, text) {
    this.took = 0;
    this.asked = performance.now();
    this.stops = Array.from(text.matchAll(/^[ \t]*(?:on|fence|turn|commit)\b.*\n/gm), found => found.index + found[0].length);
    return super.answer(words, text);
  }
}
