// A trace on one of the four machines, with all that the program answers to it. The program is run with its log, so each
// persist step of each command is known from one run.

import {Device} from './device.js';
import {CHIP, Layout, TreeLayout} from './layout.js';
import {wordsFor} from './options.js';
import {commandsOf, firstWord, freePort, isCut, isExhibit, isStop, loggedReplies, namedLines, NO_FUSE, wordsOf, ZEROS} from './trace.js';

export const MACHINES = {
  run: 'the controller', wear: 'wear levelling', txn: 'transactions', tree: 'a counter tree',
};

export const FAULTS = {1: 'no such command', 2: 'too few or too many words', 3: 'a word is not a number', 4: 'a port is above 7',
  5: 'a word has the wrong hex digits: a line has 128', 6: 'more than 1,024 bytes'};

const HIDDEN_LINES = {run: 0, wear: 2, txn: 16, tree: 0};

// What the program says of a trace that it stops at, in words.
export function faultText(fault) {
  const [, what, , kind] = fault.split(' ');
  return what === 'line' ? `${fault}: ${FAULTS[kind]}` : fault;
}

export class Model {
  constructor(program, machine, options, lines) {
    Object.assign(this, {program, machine, options, lines});
    this.words = [machine, ...wordsFor(machine, options)];
    this.commands = commandsOf(lines);
    this.texts = this.commands.map(command => command.text);
    this.layout = machine === 'tree' ? new TreeLayout(options) : new Layout(options);
    const said = program.answer([...this.words, '--log'], this.texts.join('\n') + '\n');
    this.status = said.status;
    this.replies = loggedReplies(said.text);
    this.fault = this.replies.length && isStop(this.replies[this.replies.length - 1]) ? this.replies.pop().answer : null;
    this.exhibit = this.replies.find(isExhibit)?.answer ?? null;
    this.lists = this.replies.map(reply => reply.accesses.filter(({kind}) => kind !== 'look'));
    this.outcomes = new Map();
    this.device = new Device(this);
    this.remembered = new Map();
  }

  // The line of the trace that the program stops at, or null.
  get faultLine() {
    return this.fault === null ? null : this.commands[this.replies.length]?.line ?? null;
  }

  get dataLines() {
    return this.layout.dataLines - HIDDEN_LINES[this.machine];
  }

  // What was asked once is remembered.
  once(key, ask) {
    if (!this.remembered.has(key)) this.remembered.set(key, ask());
    return this.remembered.get(key);
  }

  total(index) {
    return this.lists[index]?.length ?? 0;
  }

  // Replies to the first commands and then to others.
  ask(index, more) {
    return this.program.ask(this.words, [...this.texts.slice(0, index), ...more]);
  }

  askLogged(index, more) {
    const commands = [...this.texts.slice(0, index), ...more];
    return loggedReplies(this.program.answer([...this.words, '--log'], commands.join('\n') + '\n').text);
  }

  // The commands that lead from the moment before a command to one of its steps.
  scriptTo(index, step) {
    if (!step) return [];
    return step >= this.total(index) ? [this.texts[index]] : [`cut ${step}`, this.texts[index]];
  }

  // The persist step that a command takes as its step `step`, counted from 1.
  step(index, step) {
    const entry = this.lists[index]?.[step - 1];
    if (!entry) return {kind: 'unseen', part: CHIP, line: null, name: 'the run ends with this command'};
    if (entry.kind === 'line') return {kind: 'write', part: this.layout.partOf(entry.at), line: entry.at, name: this.layout.nameOf(entry.at)};
    if (entry.at) return {kind: 'arm', part: CHIP, line: null, name: `latch: a group of ${entry.at} lines is armed`};
    if (this.commands[index].word === 'loss') return {kind: 'latch', part: CHIP, line: null, name: 'latch: the stop-loss number'};
    return {kind: 'latch', part: CHIP, line: null, name: 'latch: the armed group is done'};
  }

  // The group that is armed at a moment, as its lines; null if none is.
  group(index, step) {
    for (let at = index; at >= 0; at--) {
      const list = (this.lists[at] ?? []).slice(0, at === index ? step : undefined);
      const last = list.map(({kind}) => kind).lastIndexOf('latch');
      if (last < 0) continue;
      return list[last].at ? this.once(`group ${at}.${last}`, () => this.linesOfGroup(at, last)) : null;
    }
    return null;
  }

  // The lines of the group that a command arms by one of its steps, also if the command was cut before they were written.
  linesOfGroup(index, latch) {
    const list = isCut(this.replies[index])
      ? this.askLogged(index, [NO_FUSE, this.texts[index]])[index + 1].accesses.filter(({kind}) => kind !== 'look') : this.lists[index];
    return list.slice(latch + 1, latch + 1 + this.lists[index][latch].at).map(({at}) => at);
  }

  // The groups that a command arms, each as its lines.
  groupsOf(index) {
    return this.once(`groups ${index}`, () => this.lists[index].flatMap(({kind, at}, i) => {
      if (kind !== 'latch' || !at) return [];
      const isWhole = i + at < this.lists[index].length;
      return [isWhole ? this.lists[index].slice(i + 1, i + 1 + at).map(entry => entry.at) : this.linesOfGroup(index, i)];
    }));
  }

  // The stop-loss number at a moment; null if the machine has none.
  loss(index, step) {
    if (this.machine === 'tree') return null;
    let loss = this.options.loss;
    for (let at = 0; at <= index && at < this.replies.length; at++) {
      const isDone = at < index ? /^ok/.test(this.replies[at].answer) : step > 0;
      if (this.commands[at].word === 'loss' && isDone) loss = Number(this.commands[at].words[1]);
    }
    return loss;
  }

  // How often each device line was written before a moment, and at which step it was written last.
  written(index, step) {
    const found = new Map();
    const add = (line, place) => found.set(line, {count: (found.get(line)?.count ?? 0) + 1, last: place});
    for (let at = 0; at <= index && at < this.replies.length; at++) {
      this.lists[at].slice(0, at < index ? undefined : step).forEach((entry, i) => {
        if (entry.kind === 'line') add(entry.at, [at, i + 1]);
      });
      const tampered = at < index ? this.tampered(at) : null;
      if (tampered) add(tampered.line, [at, 0]);
    }
    return found;
  }

  // Counts of all that was done before a moment, of whole commands.
  counts(index) {
    const sum = {reads: 0, writes: 0, latches: 0, tags: 0, digests: 0};
    for (const {accesses, tags, digests} of this.replies.slice(0, index)) {
      for (const {kind} of accesses) sum[{look: 'reads', line: 'writes', latch: 'latches'}[kind]] += 1;
      sum.tags += tags;
      sum.digests += digests;
    }
    return sum;
  }

  // Power, the fuse, and the writes that wait at each port, before a command.
  chip(index) {
    const chip = {isOn: true, fuse: null, waiting: Array.from({length: 8}, () => []), hasSnapshot: false, open: null, logged: null};
    for (let at = 0; at < index && at < this.replies.length; at++) this.follow(chip, at);
    return chip;
  }

  follow(chip, at) {
    const {word, words} = this.commands[at];
    const {answer} = this.replies[at];
    const said = answer.split(' ');
    if (chip.fuse !== null) chip.fuse -= Math.min(this.total(at), chip.fuse);
    if (word === 'cut') chip.fuse = Number(words[1]);
    if (word === 'snap') chip.hasSnapshot = true;
    this.followTransaction(chip, at);
    if ((word === 'post' || word === 'part') && answer === 'ok') this.post(chip.waiting[Number(words[1])], words);
    if ((word === 'drain' || word === 'fence') && !['off', 'empty', 'cut'].includes(said[0])) {
      const drained = word === 'fence' ? Number(said[1]) + (['refused', 'spent'].includes(said[0]) ? 1 : 0) : 1;
      chip.waiting[Number(words[1])].splice(0, drained);
    }
    if (said[0] === 'cut' || (word === 'off' && answer === 'ok')) {
      const waiting = this.options.queue === 'durable' ? afterCut(chip.waiting, word, words, said) : Array.from({length: 8}, () => []);
      Object.assign(chip, {isOn: false, fuse: null, open: null, waiting});
    }
    if (word === 'on' && ['on', 'stuck'].includes(said[0])) chip.isOn = true;
    if (word === 'on' && said[0] === 'refused') chip.isOn = false;
  }

  // Adds a write to a port's queue. With combining, a whole line takes the place of the newest write to it, if that is a whole line too.
  post(queue, words) {
    const newest = queue.map(([, , line]) => BigInt(line)).lastIndexOf(BigInt(words[2]));
    const isCombined = this.options.combine === 'on' && newest >= 0 && isWhole(words) && isWhole(queue[newest]);
    queue.splice(isCombined ? newest : queue.length, isCombined ? 1 : 0, words);
  }

  // The transaction that is open, and the one that is in force: each group with the header's line puts one in force or ends it.
  followTransaction(chip, at) {
    if (this.machine !== 'txn') return;
    const {word, words} = this.commands[at], {answer} = this.replies[at];
    if (word === 'begin' && answer === 'ok') chip.open = new Map();
    if (word === 'put' && answer === 'ok') chip.open.set(Number(words[1]), words[2]);
    for (const lines of this.groupsOf(at)) {
      if (lines.includes(this.dataLines)) chip.logged = chip.logged ? null : [...(chip.open?.keys() ?? [])];
    }
    if ((word === 'abort' || word === 'commit') && firstWord(answer) !== 'off') chip.open = null;
  }

  // The data lines that the trace names.
  named() {
    return namedLines(this.commands, this.machine, this.dataLines);
  }

  readOf(line) {
    return this.machine === 'run' ? `read ${freePort(this.commands)} ${line}` : `read ${line}`;
  }

  // The replies to a script instead of the trace's rest, and what lines read as after it.
  readings(index, script, lines) {
    const replies = this.ask(index, [...script, ...lines.map(line => this.readOf(line))]).slice(index);
    return {replies: replies.slice(0, script.length), lines: lines.map((line, at) => readingOf(replies[script.length + at]))};
  }

  // What a cut before a step of a command leaves: the answer, the recovery, the lines that then read otherwise.
  cut(index, step) {
    const key = `${index}.${step}`;
    if (this.outcomes.has(key)) return this.outcomes.get(key);
    const lines = this.named();
    const quiet = this.machine === 'txn' ? [NO_FUSE, 'abort'] : [NO_FUSE];
    const before = this.once(`before ${index}`, () => this.readings(index, this.chip(index).isOn ? quiet : [NO_FUSE, 'on'], lines));
    const after = this.readings(index, [`cut ${step}`, this.texts[index], 'on'], lines);
    const otherwise = lines.map((line, at) => ({line, before: before.lines[at], after: after.lines[at]}))
      .filter(it => it.before !== it.after);
    const outcome = {answer: after.replies[1] ?? null, on: after.replies[2]?.answer ?? null, otherwise};
    this.outcomes.set(key, outcome);
    return outcome;
  }

  // What every data line reads as, in runs of lines that read alike. During a command power is cut and comes on first.
  everyLine(index, step) {
    const lines = Array.from({length: this.dataLines}, (_, line) => line);
    const script = step ? [`cut ${step}`, this.texts[index], 'on'] : [NO_FUSE];
    const {replies, lines: readings} = this.readings(index, script, lines);
    const runs = [];
    readings.forEach((reading, line) => {
      const last = runs[runs.length - 1];
      if (last && last.reading === reading && reading !== 'not read') last.to = line;
      else if (!(last && last.reading === 'not read' && reading === 'not read')) runs.push({from: line, to: line, reading});
    });
    return {replies: step ? replies.slice(1) : [], runs};
  }

  // The place of each logical line of a levelled memory, if power is on.
  places(index) {
    if (this.machine !== 'wear' || !this.chip(index).isOn) return null;
    return this.once(`places ${index}`, () => {
      const replies = this.ask(index, Array.from({length: this.dataLines}, (_, line) => `place ${line}`)).slice(index);
      const held = Array(this.dataLines + 1).fill(null);
      replies.forEach((reply, line) => { held[Number(reply.answer.split(' ')[1])] = line; });
      return held;
    });
  }

  // Which metadata positions are in the cache before a command: true, false, or null if that isn't seen. A read of each page looks
  // at those of its path that aren't cached; a read that looks at one changes the cache, so the next page is asked in another run.
  cached(index) {
    if (this.layout.pages > 16 || !this.chip(index).isOn || this.replies.slice(0, index).some(isExhibit)) return null;
    return this.once(`cached ${index}`, () => {
      const {layout} = this;
      const cached = Array(layout.firstMeta ? layout.nodes + (this.machine === 'tree' ? 0 : layout.pages) : 0).fill(null);
      let pages = Array.from({length: layout.pages}, (_, page) => page).filter(page => this.lineOfPage(index, page) !== null);
      while (pages.length) {
        const script = pages.map(page => this.readOf(this.lineOfPage(index, page)));
        const replies = this.askLogged(index, [NO_FUSE, ...script]).slice(index + 1);
        const missed = replies.findIndex(reply => reply.accesses.some(({kind, at}) => kind === 'look' && this.isMeta(at)));
        replies.slice(0, missed < 0 ? undefined : missed + 1).forEach((reply, at) => this.noteCached(cached, pages[at], reply));
        pages = missed < 0 ? [] : pages.slice(missed + 1);
      }
      return cached;
    });
  }

  isMeta(line) {
    return line >= this.layout.firstMeta && line < this.layout.firstShadow;
  }

  // A page's path is looked at from the first position that isn't cached on; above it all is cached.
  noteCached(cached, page, reply) {
    const looked = new Set(reply.accesses.filter(({kind, at}) => kind === 'look' && this.isMeta(at)).map(({at}) => at - this.layout.firstMeta));
    for (const position of this.layout.pathOf(page)) {
      if (looked.has(position)) cached[position] = false;
      else if (cached[position] === null) cached[position] = true;
    }
  }

  // A line that a read can name and that lies in a page of the device.
  lineOfPage(index, page) {
    const first = this.layout.linesOfPage * page;
    if (this.machine !== 'wear') return first < this.dataLines ? first : null;
    const held = this.places(index);
    return held.slice(first, first + this.layout.linesOfPage).find(line => line !== null && line !== undefined) ?? null;
  }

  // Of the counter tree: the version of each node, which is the number of writes of the lines below it.
  versions(index) {
    const versions = Array(this.layout.nodes).fill(0);
    this.commands.slice(0, Math.min(index, this.replies.length)).forEach(({word, words}, at) => {
      if (word !== 'write' || !/^(ok|cut kept)/.test(this.replies[at].answer)) return;
      for (const node of this.layout.pathOf(Math.floor(Number(words[1]) / 4))) versions[node] += 1;
    });
    return versions;
  }

  // Which part of the device a tampering command changes, if it is one.
  tampered(index) {
    const {word, words} = this.commands[index];
    if (!['poke', 'flip', 'back', 'move'].includes(word) || this.replies[index]?.answer !== 'ok') return null;
    const line = Number(words[word === 'move' ? 2 : 1]);
    return {line, part: this.layout.partOf(line)};
  }

  // The trace's commands, each with its answer, up to the last that was answered.
  run() {
    return this.replies.map((reply, index) => [this.texts[index], reply.answer]);
  }
}

const isWhole = words => words[words.length - 1].length === 128;

// What waits in durable queues after a cut: what has reached memory leaves its queue.
function afterCut(waiting, word, words, said) {
  if (word !== 'drain' && word !== 'fence') return waiting;
  const done = (word === 'fence' ? Number(said[2]) : 0) + (said[1] === 'kept' ? 1 : 0);
  return waiting.map((queue, port) => port === Number(words[1]) ? queue.slice(done) : queue);
}

export function readingOf(reply) {
  if (!reply) return 'not read';
  const words = wordsOf(reply.answer);
  if (firstWord(reply.answer) === 'line') return words[1] === ZEROS ? 'zeros' : words[1];
  return words[0] === 'refused' ? words.slice(0, -1).join(' ') : reply.answer;
}
