// The page's state and what changes it; what is shown again, and what is remembered for undo and in the browser's history.

import {addressOf, readAddress, traceAddress} from './address.js';
import {comparePanel, markCompared, optionField, otherModel, translated} from './compare.js';
import {TookTooLong} from './bounded.js';
import {chip} from './chip.js';
import {byId, element, fill} from './dom.js';
import {blankState, isAsGiven, lessonNamed, seedIn, showLesson, stateOf} from './lessons.js';
import {goalOf, missing} from './goal.js';
import {device} from './map.js';
import {faultText, Model} from './model.js';
import {clash, defaults, quoted, wordsFor} from './options.js';
import {referencePanel} from './reference.js';
import {OPTIONS} from './table.js';
import {abbreviated, commandsOf, isComment, isStop, spelledOut} from './trace.js';
import * as view from './view.js';

const TOO_SLOW = 'This trace takes too long for the page; ./pmem has no such limit.';
const SLOW_PART = 'Some of what this moment would show takes too long for the page.';
const SLICE = 12, MOST_COMMANDS = 2000, MOST_LINES = 5000, MOST_LETTERS = 300000, MOST_REMEMBERED = 40;

const lettersOf = state => state.lines.reduce((sum, line) => sum + line.length, 0);

// The last of some states, as many as a browser's history takes.
function lately(states) {
  let first = states.length;
  for (let letters = 0; first > 0; first--) {
    letters += lettersOf(states[first - 1]);
    if (letters > MOST_LETTERS) break;
  }
  return states.slice(first);
}

export class App {
  constructor(program, lessons, reference) {
    Object.assign(this, {program, lessons, reference, past: [], future: [], byte: null, round: 0, writing: Promise.resolve()});
    this.state = stateOf(lessons[0]);
  }

  get lesson() {
    return this.lessons.find(lesson => lesson.id === this.state.lesson) ?? null;
  }

  // Why the page doesn't take a trace, or null.
  tooLong(lines) {
    if (lines.length > MOST_LINES || lettersOf({lines}) > MOST_LETTERS) {
      return `The page takes ${MOST_LINES} lines and ${MOST_LETTERS} letters at most; ./pmem takes longer traces.`;
    }
    if (commandsOf(lines).length <= MOST_COMMANDS) return null;
    return `The page takes traces of ${MOST_COMMANDS} commands at most; ./pmem takes longer ones.`;
  }

  // Uses a state as a whole, if the page can run it. `how` says what becomes of the state before: 'edit' keeps it for undo and in the
  // browser's history, 'link' is a link in the page, 'undo' and 'redo' go along what was kept, 'history' is the browser's own step.
  take(state, how = 'edit') {
    const why = this.tooLong(state.lines) ?? this.replaceModel(state);
    if (why) {
      this.tell(why);
      return false;
    }
    const before = this.state;
    if ((how === 'edit' || how === 'link') && this.isShown) [this.past, this.future] = [[...this.past, before].slice(-MOST_REMEMBERED), []];
    if (how === 'undo') this.future.push(before);
    if (how === 'redo') this.past.push(before);
    this.state = state;
    this.load();
    if (before.lesson !== state.lesson || before.seed !== state.seed || !this.isShown) showLesson(this, this.lesson);
    else if (byId('verdict')) byId('verdict').textContent = '';
    if (before.machine !== state.machine || !this.isShown) fill('reference', referencePanel(this.reference, state.machine));
    const isNew = this.isShown && how !== 'link';
    this.isShown = true;
    if (!isNew) this.show('replace');
    else this.show(how === 'history' ? null : 'push');
    return true;
  }

  // What a call returns, or `otherwise` if a run in it takes too long.
  inTime(call, otherwise) {
    try {
      return call();
    } catch (fault) {
      if (!(fault instanceof TookTooLong)) throw fault;
      return otherwise;
    }
  }

  // Runs a state's trace; says why if that takes too long, and then all stays as it was.
  replaceModel({machine, options, lines}) {
    const model = this.inTime(() => new Model(this.program, machine, options, lines), null);
    this.model = model ?? this.model;
    return model ? null : TOO_SLOW;
  }

  load() {
    Object.assign(this, {roots: new Map(), pages: new Map(), cached: new Map(), other: null});
    const {at, stops} = this.state;
    this.state.at = this.within(at.command, at.step);
    this.state.stops = stops.filter(line => this.model.commands.some(command => command.line === line));
    if (this.state.line !== null) this.state.line = Math.min(this.state.line, this.model.layout.size - 1);
    view.rows(this);
    this.showControls();
  }

  // The moment nearest to one: `command` commands are done, and `step` steps of the next one.
  within(command, step) {
    const end = this.model.replies.length;
    const to = Math.max(0, Math.min(command, end));
    return {command: to, step: to < end ? Math.max(0, Math.min(step, this.model.total(to) - 1)) : 0};
  }

  open(id, seed = null) {
    const lesson = this.lessons.find(it => it.id === id);
    this.take(stateOf(lesson, lesson, seed));
  }

  go(command, step) {
    this.state.at = this.within(command, step);
    this.show();
  }

  forward() {
    const {command, step} = this.state.at;
    if (step + 1 < this.model.total(command)) this.go(command, step + 1);
    else this.go(command + 1, 0);
  }

  backward() {
    const {command, step} = this.state.at;
    if (step > 0) this.go(command, step - 1);
    else if (command > 0) this.go(command - 1, this.model.total(command - 1) - 1);
  }

  // To the next breakpoint, or the end.
  run() {
    const {commands} = this.model;
    const next = commands.findIndex(({line}, index) => index > this.state.at.command && this.state.stops.includes(line));
    this.go(next < 0 ? this.model.replies.length : next, 0);
  }

  toggleStop(index) {
    const line = this.model.commands[index]?.line;
    if (line === undefined) return;
    const {stops} = this.state;
    this.state.stops = stops.includes(line) ? stops.filter(it => it !== line) : [...stops, line].sort((one, other) => one - other);
    view.rows(this);
    this.show();
  }

  // Puts commands into the trace at the moment; with them, `done` more commands are done.
  put(texts, done) {
    const {command} = this.state.at;
    const lines = [...this.state.lines];
    const line = command < this.model.commands.length ? this.model.commands[command].line : lines.length;
    lines.splice(line, 0, ...texts);
    const stops = this.state.stops.map(stop => stop >= line ? stop + texts.length : stop);
    return this.take({...this.state, lines, stops, at: {command: command + done, step: 0}});
  }

  // Puts in a line of one's own; false, with a message, if it can't be put in here.
  putIn(text) {
    const line = spelledOut(text.trim());
    if (!line) return false;
    const why = this.whyNot(line);
    if (why) this.tell(why);
    return !why && this.put([line], isComment(line) ? 0 : 1);
  }

  whyNot(line) {
    const {at} = this.state;
    if (at.step) return 'Nothing else can be done during a command: cut power here, or step to its end.';
    const isOver = this.model.exhibit && at.command >= this.model.replies.length;
    if (isOver) return 'The run has ended with an exhibit: step back to put a command in before it.';
    return this.faultOf(line);
  }

  // What the program finds wrong with one line, or null.
  faultOf(line) {
    if (isComment(line) || !line.trim()) return null;
    const replies = this.inTime(() => this.program.ask(this.model.words, [line]), []);
    return replies.length && isStop(replies[replies.length - 1]) ? faultText(replies[replies.length - 1].answer).replace(/^[^:]*: /, '') : null;
  }

  // What the program finds wrong with a whole text, or null.
  faultOfText(text) {
    const lines = spelledOut(text).split('\n');
    const why = this.tooLong(lines);
    if (why) return why;
    const commands = commandsOf(lines);
    const replies = this.inTime(() => this.program.ask(this.model.words, commands.map(command => command.text)), null);
    if (!replies) return TOO_SLOW;
    const fault = replies.length && isStop(replies[replies.length - 1]) ? replies[replies.length - 1].answer : null;
    if (!fault) return null;
    const command = commands[Number(fault.split(' ')[2]) - 1];
    return command ? `line ${command.line + 1}: ${faultText(fault).replace(/^[^:]*: /, '')}` : fault;
  }

  cutHere() {
    const {command, step} = this.state.at;
    if (!this.model.chip(command).isOn) return this.tell('Power is off already.');
    if (this.model.total(command)) return this.put([`cut ${step}`], 2);
    return this.put(['off'], 1);
  }

  powerOn() {
    const {command, step} = this.state.at;
    if (!step && this.model.chip(command).isOn) return this.tell('Power is on.');
    if (step && !this.cutHere()) return undefined;
    return this.put(['on'], 1);
  }

  readAll() {
    const {command, step} = this.state.at;
    const read = this.inTime(() => this.model.everyLine(command, step), null);
    if (!read) return this.tell(SLOW_PART);
    view.found(this, read.runs, read.replies);
    return byId('found').scrollIntoView({block: 'nearest'});
  }

  leaveOut(index) {
    const {line} = this.model.commands[index];
    const lines = this.state.lines.filter((_, at) => at !== line);
    const stops = this.state.stops.filter(stop => stop !== line).map(stop => stop > line ? stop - 1 : stop);
    const {command} = this.state.at;
    this.take({...this.state, lines, stops, at: {command: index < command ? command - 1 : command, step: 0}});
  }

  undo() {
    if (this.past.length) this.take(this.past.pop(), 'undo');
    else this.tell('There is nothing to take back.');
  }

  redo() {
    if (this.future.length) this.take(this.future.pop(), 'redo');
    else this.tell('There is nothing to make again.');
  }

  choose(line) {
    if (!Number.isInteger(line)) return;
    this.state.line = Math.max(0, Math.min(line, this.model.layout.size - 1));
    this.byte = null;
    this.show();
  }

  chooseByte(at) {
    this.byte = this.byte === at ? null : at;
    this.show();
  }

  // What a run lacks for a goal, or null.
  missing(goal, run) {
    return missing(goalOf(goal), run);
  }

  // What the program says of an exhibit line.
  checked(text) {
    const {suite, key, 'tag-key': tagKey} = this.state.options;
    const words = wordsFor('tree', {...defaults(), suite, key, 'tag-key': tagKey});
    return this.inTime(() => this.program.answer(['check', ...words], text + '\n').text.trim(), SLOW_PART);
  }

  // The moment before the last step, or null at the beginning.
  momentBefore() {
    const {command, step} = this.state.at;
    if (step > 0) return {command, step: step - 1};
    return command === 0 ? null : {command: command - 1, step: Math.max(0, this.model.total(command - 1) - 1)};
  }

  // The device before the last step.
  before() {
    const moment = this.momentBefore();
    return moment && this.model.device.at(moment.command, moment.step);
  }

  otherModel() {
    this.other ??= otherModel(this);
    return this.other;
  }

  // Makes the comparison again if its trace or machine changed, and marks the command that is due.
  showCompared() {
    const key = [this.model, this.state.compared];
    if (this.comparedKey?.every((it, i) => it === key[i])) return markCompared(this);
    this.comparedKey = key;
    fill('compared', comparePanel(this));
    return markCompared(this);
  }

  compareWith(compared) {
    this.other = null;
    this.state.compared = compared;
    if (!this.inTime(() => [this.showCompared()], null)) {
      this.state.compared = null;
      this.showCompared();
      this.tell('This trace takes too long on the other machine.');
    }
    this.remember('replace');
  }

  explain(index) {
    view.explain(this, index);
  }

  // Explains the command that is under way, or else the last one that was done.
  explainHere() {
    const {command, step} = this.state.at;
    this.explain(Math.max(0, command - (step ? 0 : 1)));
  }

  tell(text) {
    const notice = byId('notice');
    notice.hidden = !text;
    notice.textContent = text;
  }

  // Shows the moment; what takes many runs follows in slices. `how` says how the browser's history takes it.
  show(how = 'replace') {
    this.tell('');
    view.found(this, null);
    this.round += 1;
    view.markRows(this);
    view.exhibit(this);
    this.explainHere();
    this.showButtons();
    byId('said').textContent = view.spoken(this);
    if (!this.inTime(() => [view.now(this), device(this)], null)) this.tell(SLOW_PART);
    if (how) this.remember(how);
    this.shown = 0;
    this.later(this.work(this.state.at), this.round);
  }

  // What is shown once the moment itself is, and again as more is known.
  showAll() {
    this.shown = performance.now();
    for (const part of [view.now, view.time, view.became, chip]) if (!this.inTime(() => [part(this)], null)) this.tell(SLOW_PART);
  }

  // All that is asked besides, the nearest first.
  * work({command, step}) {
    const {model} = this;
    const total = model.total(command);
    if (total) yield () => model.cut(command, step);
    const before = this.momentBefore();
    for (const moment of [{command, step}, ...(before ? [before] : [])]) {
      yield () => this.roots.set(`${moment.command}.${moment.step}`, model.device.rootAt(moment.command, moment.step));
      yield () => this.pages.set(String(moment.command), model.device.pagesAt(moment.command));
    }
    yield () => this.cached.set(String(command), model.cached(command));
    yield () => this.showCompared();
    const count = total && /^cut/.test(model.replies[command].answer) ? total + 1 : total;
    for (let far = 1; far <= count; far++) {
      for (const cut of [step + far, step - far]) if (cut >= 0 && cut < count) yield () => model.cut(command, cut);
    }
  }

  later(work, round) {
    const slice = () => {
      if (round !== this.round) return;
      if (!this.shown) this.showAll();
      const end = performance.now() + SLICE;
      let isDone = false;
      while (!isDone && performance.now() < end) {
        const next = work.next();
        isDone = next.done || !this.inTime(() => [next.value()], null);
        if (isDone && !next.done) this.tell(SLOW_PART);
      }
      if (isDone || performance.now() - this.shown > 150) this.showAll();
      if (isDone) document.body.dataset.idle = String(round);
      else setTimeout(slice, 0);
    };
    setTimeout(slice, 0);
  }

  // Writes the state into the address: 'push' makes an entry in the browser's history, 'replace' waits for the moves that follow.
  remember(how) {
    clearTimeout(this.waiting);
    if (how === 'push' && this.moved) this.write('replace', this.moved);
    this.moved = how === 'push' ? null : this.snapshot();
    if (how === 'push') this.write('push', this.snapshot());
    else this.waiting = setTimeout(() => this.settled(), 120);
  }

  // Writes what is still to be written; done once the address is that of the moment.
  settled() {
    if (this.moved) this.write('replace', this.moved);
    this.moved = null;
    return this.writing;
  }

  snapshot() {
    return {state: {...this.state}, past: lately(this.past), future: lately(this.future), isGiven: isAsGiven(this.state, this.lesson)};
  }

  write(how, {isGiven, ...kept}) {
    this.writing = this.writing.then(async () => {
      const address = addressOf(kept.state, isGiven ? null : await traceAddress(kept.state.lines));
      try {
        if (how === 'push') history.pushState(kept, '', address);
        else history.replaceState(kept, '', address);
      } catch (fault) {
        // A frame may forbid changes of its address, and a browser too many of them: the page goes on without.
        if (fault.name !== 'SecurityError') throw fault;
      }
    });
  }

  showButtons() {
    const {command, step} = this.state.at;
    const {isOn} = this.model.chip(command);
    const isOver = command >= this.model.replies.length && (this.model.exhibit !== null || this.model.fault !== null);
    const off = (id, isOff) => byId(id).setAttribute('aria-disabled', String(Boolean(isOff)));
    off('cut', !isOn || isOver);
    off('on', (isOn && !step) || isOver);
    off('read', isOver);
    off('undo', !this.past.length);
    off('redo', !this.future.length);
    for (const id of ['first', 'up', 'back']) off(id, command === 0 && step === 0);
    for (const id of ['next', 'down', 'last']) off(id, command >= this.model.replies.length);
  }

  showControls() {
    const {machine, options, lines} = this.state;
    byId('machine').value = machine;
    byId('chosen').value = this.state.lesson ?? '';
    if (byId('editing').hidden) byId('text').value = abbreviated(lines.join('\n')) + '\n';
    else this.showTextFault();
    fill('words', this.reference.commands(machine).map(({form}) => element('option', {value: form.split(' ')[0] + ' '}, form)));
    fill('options', OPTIONS[machine].map(name => [element('label', {for: `option-${name}`}, name),
      optionField(`option-${name}`, name, options[name], value => this.setOption(name, value), this)]));
    const words = wordsFor(machine, options);
    byId('options-said').textContent = words.length ? words.join(' ').slice(0, 40) : '';
    const status = this.model.status === null ? '' : ` (status ${this.model.status})`;
    byId('shell').textContent = `./pmem ${[machine, ...words].map(quoted).join(' ')} < trace${status}`;
  }

  showTextFault() {
    const text = byId('text').value;
    const fault = this.faultOfText(text);
    const isOld = this.editedFrom !== this.state.lines;
    byId('text-fault').textContent = fault ?? (isOld ? 'The trace has changed since: using this text replaces it.' : '');
  }

  setOption(name, value) {
    const options = {...this.state.options, [name]: value}, why = clash(options);
    if (why) {
      this.showControls();
      return this.tell(`${name} isn't ${value} now: ${why}.`);
    }
    return this.take({...this.state, options, at: {...this.state.at, step: 0}});
  }

  // The same trace on another machine: its writes, reads, cuts and power in the other machine's commands.
  setMachine(machine) {
    const parts = translated(this.model, machine);
    const places = new Map(this.model.commands.map(({text, line}, index) => [line, index < parts.length ? parts[index] ?? [] : [text]]));
    const lines = this.state.lines.flatMap((text, line) => places.get(line) ?? [text]);
    const lost = parts.filter(part => part === null).length;
    const isTaken = this.take({...this.state, machine, options: {...defaults()}, lines, stops: [], at: {command: 0, step: 0}});
    const says = lost === 1 ? `1 command that ${machine} doesn't have is` : `${lost} commands that ${machine} doesn't have are`;
    if (isTaken && lost) this.tell(`${says} left out; undo brings the trace back.`);
  }

  // Opens what the address says, or the first lesson; what the page doesn't take is named in a message.
  async begin(how = 'history') {
    const said = await readAddress(location.hash, MOST_LETTERS);
    const lesson = said.lesson === null ? null : lessonNamed(this.lessons, said.lesson);
    if (said.lesson !== null && !lesson) said.faults.push(`there is no lesson ${said.lesson}`);
    const seed = said.seed === null ? null : seedIn(said.seed, lesson);
    if (said.seed !== null && seed === null) said.faults.push(`there is no variant ${said.seed} of this trace`);
    let state = stateOf(lesson ?? this.lessons[0], lesson ?? this.lessons[0], seed);
    if (said.lines !== null) {
      state = {...blankState(), machine: said.machine, options: said.options, lines: said.lines, lesson: lesson?.id ?? null, seed};
    }
    const whole = {...state, at: said.at, line: said.line, stops: said.stops, compared: said.compared};
    let why = this.take(whole, how) ? null : byId('notice').textContent;
    if (why && !this.isShown) this.take(stateOf(this.lessons[0]), 'history');
    if (said.faults.length) why = [`This link isn't opened as it is written: ${said.faults.join('; ')}.`, why].filter(it => it).join(' ');
    if (why) this.tell(why);
  }
}
