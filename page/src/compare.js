// Two machines, or two sets of options, on one trace: replies, steps and work next to each other.

import {byId, element} from './dom.js';
import {MACHINES, Model} from './model.js';
import {choicesOf, clash, defaults, rangeOf, valueOf, wordsFor} from './options.js';
import {OPTIONS} from './table.js';
import {isCut, short} from './trace.js';
import {classOf} from './view.js';

// What each machine's commands for a line of memory are, given the line's number and its bytes.
const WRITES = {run: (at, line) => [`post 0 ${at} ${line}`, 'drain 0'], wear: (at, line) => [`write ${at} ${line}`],
  txn: (at, line) => ['begin', `put ${at} ${line}`, 'commit'], tree: (at, line) => [`write ${at} ${line}`]};
const READS = {run: at => [`read 0 ${at}`], wear: at => [`read ${at}`], txn: at => [`read ${at}`], tree: at => [`read ${at}`]};

// What waits to be written: at each port of the first controller, or in an open transaction.
class Waiting {
  constructor(machine) {
    this.machine = machine;
    this.ports = Array.from({length: 8}, () => []);
    this.open = [];
  }

  // Adds a write, which isn't a command of the other machine yet.
  add(queue, at, line) {
    queue.push([at, line]);
    return [];
  }

  // The oldest writes of a queue, as commands of the other machine.
  take(queue, count) {
    return queue.splice(0, count).flatMap(([at, line]) => WRITES[this.machine](at, line));
  }

  drop() {
    this.open = [];
    return [];
  }
}

const SAME = ['cut', 'off', 'on'];
// How each command of a line of memory is given to the other machine.
const TRANSLATED = {
  post: (waiting, [, port, at, line]) => waiting.add(waiting.ports[port], at, line),
  drain: (waiting, [, port]) => waiting.take(waiting.ports[port], 1),
  fence: (waiting, [, port]) => waiting.take(waiting.ports[port], 16),
  begin: waiting => waiting.drop(), abort: waiting => waiting.drop(),
  put: (waiting, [, at, line]) => waiting.add(waiting.open, at, line),
  commit: waiting => waiting.take(waiting.open, 15),
  write: (waiting, [, at, line]) => WRITES[waiting.machine](at, line),
  read: (waiting, words) => READS[waiting.machine](words[words.length - 1]),
};

// A trace's writes and reads of whole lines, cuts and power, as commands of another machine. For each command that was answered: the
// commands of the other machine, or null if it has none.
export function translated(model, machine) {
  const waiting = new Waiting(machine);
  return model.commands.slice(0, model.replies.length).map(({text, word, words}) => {
    if (machine === model.machine || SAME.includes(word)) return [text];
    return Object.hasOwn(TRANSLATED, word) ? TRANSLATED[word](waiting, words.map(it => /^0[0-9]+$/.test(it) ? String(BigInt(it)) : it)) : null;
  });
}

// The other model, with the place of each command's translation in it.
export function otherModel(app) {
  const {machine, options} = app.state.compared;
  const parts = translated(app.model, machine);
  const model = new Model(app.program, machine, options, parts.flatMap(part => part ?? []));
  let at = 0;
  return {model, places: parts.map(part => part && [at, at += part.length])};
}

const sum = (model, from, to, of) => Array.from({length: Math.max(0, Math.min(to, model.replies.length) - from)}, (_, i) => of(from + i))
  .reduce((one, other) => one + other, 0);

// The panel, closed until another machine is chosen.
export function comparePanel(app) {
  const {compared} = app.state;
  const head = [element('h2', {}, 'Compare'), element('p', {class: 'legend'},
    'The same trace on another machine, or with other options. Its writes, reads, cuts and power are given in the other machine\'s commands; '
    + 'what it doesn\'t have is left out.'), element('div', {class: 'bar'}, chooser(app), ...(compared ? optionFields(app) : []))];
  if (!compared) return head;
  const {model, places} = app.otherModel();
  const rows = app.model.replies.map((_, index) => pairRow(app, model, places[index], index));
  const name = (of, options) => ['pmem', of, ...wordsFor(of, options)].join(' ');
  return [...head, model.fault ? element('p', {class: 'fault'}, `The other machine stops: ${model.fault}`) : null,
    element('div', {class: 'scroll', tabindex: 0, role: 'region', 'aria-label': 'Both machines, to be scrolled'}, element('table', {},
      element('thead', {}, element('tr', {}, ['command', name(app.model.machine, app.state.options), 'steps',
        name(compared.machine, compared.options), 'steps'].map(it => element('th', {scope: 'col'}, it)))), element('tbody', {}, rows), totals(app.model, model)))];
}

function pairRow(app, model, place, index) {
  const mine = app.model.replies[index], steps = app.model.total(index);
  const reply = it => it ? element('span', {class: classOf(it.answer)}, short(it.answer)) : '-';
  const theirs = place && place[1] > place[0] ? model.replies[Math.min(place[1], model.replies.length) - 1] : null;
  const others = place ? sum(model, ...place, at => model.total(at)) : 0;
  const isCutThere = place && model.replies.slice(...place).find(isCut);
  const isOther = theirs && (steps !== others || mine.answer !== theirs.answer);
  return element('tr', {},
    element('td', {}, element('button', {type: 'button', class: 'plain', onclick: () => app.go(index, 0)}, short(app.model.texts[index]))),
    element('td', {}, reply(mine)), element('td', {class: 'number'}, String(steps)),
    element('td', {class: isOther ? 'differs' : null}, place === null ? 'left out' : reply(isCutThere ?? theirs)),
    element('td', {class: `number${steps === others ? '' : ' differs'}`}, place === null ? '' : String(others)));
}

// Marks the row of the command that is due.
export function markCompared(app) {
  const rows = byId('compared').querySelectorAll('tbody tr');
  byId('compared').querySelectorAll('tr.due').forEach(row => { row.classList.remove('due'); row.removeAttribute('aria-current'); });
  rows[app.state.at.command]?.classList.add('due');
  rows[app.state.at.command]?.setAttribute('aria-current', 'step');
}

function totals(one, other) {
  const mine = one.counts(one.replies.length), theirs = other.counts(other.replies.length);
  const names = {reads: 'lines read', writes: 'lines written', latches: 'latches', tags: 'tags', digests: 'digests'};
  return element('tfoot', {}, Object.entries(names).map(([key, says]) => element('tr', {}, element('th', {scope: 'row'}, says), element('td'),
    element('td', {class: 'number'}, String(mine[key])), element('td'),
    element('td', {class: `number${mine[key] === theirs[key] ? '' : ' differs'}`}, String(theirs[key])))));
}

function chooser(app) {
  const {compared} = app.state;
  const choose = event => {
    const machine = event.target.value;
    const options = machine === app.state.machine ? {...app.state.options} : defaults();
    app.compareWith(machine ? {machine, options} : null);
  };
  return element('label', {}, 'Next to it ', element('select', {id: 'compared-machine', onchange: choose},
    element('option', {value: '', selected: !compared}, 'nothing'), Object.entries(MACHINES).map(([name, what]) =>
      element('option', {value: name, selected: compared?.machine === name}, `${name}: ${what}`))));
}

function optionFields(app) {
  const {machine, options} = app.state.compared;
  const take = (name, value) => {
    const changed = {...options, [name]: value}, why = clash(changed);
    if (!why) return app.compareWith({machine, options: changed});
    app.compareWith({machine, options});
    return app.tell(`${name} isn't ${value} now: ${why}.`);
  };
  return OPTIONS[machine].filter(name => !name.endsWith('key')).map(name => element('label', {}, `${name} `,
    optionField(`compared-${name}`, name, options[name], value => take(name, value), app)));
}

// A field for an option: a list of its values, or a text that is checked.
export function optionField(id, name, value, take, app) {
  const choices = choicesOf(name);
  const changed = event => {
    const found = valueOf(name, event.target.value.trim());
    if (found !== undefined) return take(found);
    app.tell(`${name} is ${rangeOf(name)}, not ${event.target.value}`);
    event.target.value = value;
  };
  if (choices) {
    return element('select', {id, onchange: changed}, choices.map(it => element('option', {value: it, selected: it === value}, String(it))));
  }
  return element('input', {id, value, size: typeof value === 'number' ? 5 : 14, spellcheck: 'false', onchange: changed,
    placeholder: value === '' ? 'the program\'s own' : null});
}
