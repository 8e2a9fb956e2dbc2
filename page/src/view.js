// What the page shows of a model at a moment: the rows of the trace, the step that is due, the lanes, the cuts, evidence.

import {byId, copyText, element, fill} from './dom.js';
import {lanes} from './lanes.js';
import {faultText} from './model.js';
import {EXHIBITS, firstWord, isCut, short} from './trace.js';

// How an answer is coloured.
export function classOf(answer) {
  const said = firstWord(answer);
  if (EXHIBITS.includes(said)) return 'said-exhibit';
  if (answer.startsWith('cut kept')) return 'said-kept';
  return ['refused', 'cut', 'stop', 'spent', 'stuck'].includes(said) ? 'said-lost' : '';
}

const plural = (count, noun) => `${count} ${noun}${count === 1 ? '' : 's'}`;

const sign = answer => answer.startsWith('cut kept') ? '● ' : answer.startsWith('cut lost') ? '✕ ' : '';

// The rows of the trace, made again when the trace changes.
export function rows(app) {
  const {model, state} = app;
  const places = new Map(model.commands.map((command, index) => [command.line, index]));
  fill('rows', state.lines.map((text, line) => {
    if (places.has(line)) return row(app, places.get(line), line);
    return text.trim() ? element('li', {class: 'note'}, text.replace(/^\s*#\s?/, '')) : null;
  }));
}

// A button that copies the 64 bytes of a reply, which is shown in short; null if it has none.
function copyButton(app, answer) {
  const bytes = /^(?:raw|line) ([0-9a-f]{128})\b/.exec(answer)?.[1];
  const copy = () => copyText(bytes).then(isDone => isDone && app.tell('The 64 bytes are copied.'));
  return bytes ? element('button', {class: 'copy', type: 'button', tabindex: -1, title: 'copy these 64 bytes', 'aria-label': 'copy these 64 bytes',
    onclick: copy}, 'copy') : null;
}

function row(app, index, line) {
  const {model} = app;
  const reply = model.replies[index];
  const text = short(model.texts[index].trim());
  const said = reply ? [...reply.marks.map(mark => element('span', {class: 'reply mark'}, short(mark))),
    element('span', {class: `reply ${classOf(reply.answer)}`}, sign(reply.answer) + short(reply.answer), copyButton(app, reply.answer))] : [];
  const fault = !reply && model.fault && index === model.replies.length
    ? element('span', {class: 'reply fault'}, faultText(model.fault)) : null;
  const isStop = app.state.stops.includes(line);
  return element('li', {'data-index': index, onmouseenter: () => app.explain(index), onfocusin: () => app.explain(index)},
    element('button', {class: 'stop', type: 'button', tabindex: -1, 'aria-pressed': String(isStop), title: 'breakpoint (b)',
      'aria-label': `breakpoint at command ${index + 1}`, onclick: () => app.toggleStop(index)}, isStop ? '●' : '○'),
    element('span', {class: 'number'}, String(index + 1)),
    element('button', {class: 'command', type: 'button', tabindex: -1, onclick: () => app.go(index, 0)}, text),
    element('button', {class: 'drop', type: 'button', title: 'leave this command out', 'aria-label': `leave out command ${index + 1}`, tabindex: -1,
      onclick: () => app.leaveOut(index)}, '×'), said, fault);
}

// Marks the row that is due; its buttons are those that the keyboard reaches.
export function markRows(app) {
  const {command} = app.state.at;
  let due = null;
  for (const item of byId('rows').children) {
    if (item.dataset.index === undefined) continue;
    const index = Number(item.dataset.index), isDue = index === command;
    item.classList.toggle('due', isDue);
    item.classList.toggle('later', index >= command && !(app.model.fault && index === app.model.replies.length));
    if (isDue) item.setAttribute('aria-current', 'step');
    else item.removeAttribute('aria-current');
    item.querySelectorAll('button').forEach(button => { button.tabIndex = isDue ? 0 : -1; });
    if (isDue) due = item;
  }
  const list = byId('rows');
  if (due) list.scrollTop = Math.max(0, due.offsetTop - list.offsetTop - list.clientHeight / 2);
  else list.scrollTop = list.scrollHeight;
}

// What the program said of a command, in sentences.
export function explain(app, index) {
  const {model, reference} = app;
  const command = model.commands[index], reply = model.replies[index];
  if (!command) return fill('hint', element('p', {}, 'Point at a command, or step to one, to see what it and its reply say.'));
  const known = reference.command(model.machine, command.word);
  const isReached = index < app.state.at.command && reply;
  fill('hint', element('p', {}, element('code', {}, known?.form ?? command.word), known ? ` ${known.does}.` : ' isn\'t a command of this machine.'),
    isReached ? [...reply.marks.map(mark => element('p', {}, element('code', {}, short(mark)), ' ', reference.mark(mark))),
      element('p', {}, element('code', {}, short(reply.answer)), ' ', reference.answer(model.machine, command.word, reply.answer))] : null);
}

// What became of a cut, in a sentence.
function outcomeText(outcome) {
  const parts = [outcome.answer ? short(outcome.answer.answer) : 'the run ends', outcome.on ? `then ${short(outcome.on)}` : null,
    outcome.otherwise.length ? outcome.otherwise.map(it => `line ${it.line} reads ${short(it.after)}`).join(', ')
      : 'every line that the trace names reads as before'];
  return parts.filter(it => it).join('; ');
}

function power(model, at) {
  const chip = model.chip(at.command);
  const fuse = chip.isOn && chip.fuse !== null ? `, ${plural(Math.max(0, chip.fuse - at.step), 'step')} until the cut` : '';
  return element('span', {class: `power ${chip.isOn ? 'is-on' : 'is-off'}`}, chip.isOn ? `power is on${fuse}` : 'power is off');
}

// The last step that was done, in words, or null.
function doneText(app) {
  const {model} = app;
  const {command, step} = app.state.at;
  const [index, at] = step > 0 ? [command, step] : [command - 1, command > 0 ? model.total(command - 1) : 0];
  if (!at) return null;
  const now = model.device.at(command, step), before = app.before();
  const found = model.step(index, at);
  const isSame = found.line !== null && now && before && now[found.line] === before[found.line];
  return found.name + (isSame ? ', with the bytes that it had' : '');
}

// What is due, in a sentence for a screen reader.
export function spoken(app) {
  const {model} = app;
  const {command, step} = app.state.at;
  if (command >= model.replies.length) return model.fault ? `The run stops: ${model.fault}` : 'The end of the trace';
  const reply = command && !step ? `${short(model.replies[command - 1].answer)}. ` : '';
  const total = model.total(command), text = short(model.texts[command]);
  return total ? `${reply}Step ${step + 1} of ${total} of ${text}: ${model.step(command, step + 1).name}` : `${reply}Next: ${text}`;
}

// The step that is due next.
export function now(app) {
  const {model} = app;
  const {command, step} = app.state.at;
  const done = doneText(app);
  const doneLine = element('div', {}, 'done: ', done ?? 'no step yet');
  if (command >= model.replies.length) {
    const why = model.fault ? `The run stops here: ${faultText(model.fault)}.` : model.exhibit ? 'The run has ended with an exhibit.'
      : 'This is the end of the trace.';
    return fill('now', element('h2', {}, why, ' ', model.exhibit || model.fault ? null : power(model, app.state.at)), doneLine);
  }
  const total = model.total(command);
  const text = element('code', {}, short(model.texts[command]));
  if (!total) {
    const why = isCut(model.replies[command]) ? 'power is cut before its first step' : 'takes no persist step';
    return fill('now', element('h2', {}, 'Next: ', text, ' ', power(model, app.state.at)), doneLine, element('div', {}, 'due: ', why));
  }
  const outcome = model.outcomes.get(`${command}.${step}`);
  fill('now', element('h2', {}, `Step ${step + 1} of ${total} of `, text, ' ', power(model, app.state.at)), doneLine,
    element('div', {}, 'due: ', element('b', {}, model.step(command, step + 1).name)),
    element('div', {}, 'a cut here: ', outcome
      ? element('span', {class: outcome.answer ? classOf(outcome.answer.answer) : ''}, outcomeText(outcome)) : '..'));
}

const SHADOW_LINE = 'shadow line';
const LEGEND = [['●', 'data line'], ['■', 'tag line'], ['▲', 'counter block'], ['▼', 'tree node'], ['✚', SHADOW_LINE],
  ['◆', 'the latch that arms a group'], ['◇', 'another latch'], ['✕', 'an attacker\'s change'], ['┆', 'a power cut'],
  ['┃', 'this moment']];

export function time(app) {
  const {box, here} = lanes(app.model, app.state.at, (command, step) => app.go(command, step));
  const old = byId('time').querySelector('.scroll')?.scrollLeft ?? 0;
  fill('time', element('h2', {}, 'Persist steps'), box, element('p', {class: 'legend'},
    LEGEND.filter(([, what]) => what !== SHADOW_LINE || app.model.layout.hasTables !== false).map(([shape, what]) => element('span', {}, element('b', {}, shape), ` ${what}`)),
    element('span', {}, element('i', {class: 'swatch off'}), ' power is off'), element('span', {}, element('i', {class: 'swatch on'}), ' recovery'),
    element('span', {}, element('i', {class: 'swatch due'}), ' the step that is due; pale: not done yet')));
  const scroll = byId('time').querySelector('.scroll');
  scroll.scrollLeft = old;
  const isInView = here > old + 60 && here < old + scroll.clientWidth - 60;
  if (!isInView) scroll.scrollLeft = Math.max(0, here - scroll.clientWidth / 2);
}

// What a cut before each step of the command that is due leaves.
export function became(app) {
  const {model} = app;
  const {command, step} = app.state.at;
  const total = model.total(command);
  byId('became').hidden = !total;
  if (!total) return;
  const count = isCut(model.replies[command]) ? total + 1 : total;
  fill('became', element('h2', {}, 'What a cut leaves: ', element('code', {}, short(model.texts[command]))),
    element('div', {class: 'scroll', tabindex: 0, role: 'region', 'aria-label': 'The cuts, to be scrolled'}, element('table', {},
      element('thead', {}, element('tr', {}, ['steps done', 'the step that is cut', 'answer', 'recovery', 'lines that then read otherwise']
        .map(it => element('th', {scope: 'col'}, it)))),
      element('tbody', {}, Array.from({length: count}, (_, cut) => cutRow(app, command, cut, step))))));
  const due = byId('became').querySelector('tr.due');
  if (due && app.tableAt !== `${command}.${step}`) due.closest('.scroll').scrollTop = due.offsetTop - 90;
  app.tableAt = `${command}.${step}`;
}

function cutRow(app, command, cut, step) {
  const outcome = app.model.outcomes.get(`${command}.${cut}`);
  const due = cut < app.model.total(command) ? app.model.step(command, cut + 1).name : 'none: power is cut here';
  const cells = outcome ? [
    element('span', {class: outcome.answer ? classOf(outcome.answer.answer) : ''}, outcome.answer
      ? sign(outcome.answer.answer) + short(outcome.answer.answer) : '-'),
    outcome.on ? short(outcome.on) : '-', outcome.otherwise.map(it => `${it.line}: ${short(it.after)}`).join(', ') || 'none']
    : ['..', '', ''];
  return element('tr', {class: cut === step ? 'due' : null, 'aria-current': cut === step ? 'step' : null},
    element('td', {class: 'number'}, element('button', {type: 'button', onclick: () => app.go(command, cut), 'aria-label': `go to ${cut} steps done`},
      String(cut))), [due, ...cells].map(cell => element('td', {}, cell)));
}

const FIELDS = {forged: ['line', 'counter', 'cipher, which was never sealed', 'tag, which fits it'],
  twin: ['line', 'major', 'one minor', 'the other minor', 'cipher', 'tag, which fits under both'],
  clash: ['position in the tree', 'the line that was read', 'the true line, of the same digest']};

// The evidence that ended the run, with all its bytes, and what the program says of it.
export function exhibit(app) {
  const {model} = app;
  const isReached = model.exhibit && app.state.at.command >= model.replies.length;
  byId('exhibit').hidden = !isReached;
  if (!isReached) return;
  const words = model.exhibit.split(' ');
  const text = element('textarea', {rows: 6, 'aria-label': 'The exhibit'}, model.exhibit);
  const said = element('b', {id: 'checked', role: 'status'});
  fill('exhibit', element('h2', {}, `An exhibit: ${words[0]}`),
    element('p', {}, 'A check of the suite has passed, and the bytes are wrong all the same. '
      + 'The run ends, and shows the evidence. Anyone who has the keys can check it without the run.'),
    element('dl', {class: 'rows'}, FIELDS[words[0]].flatMap((what, i) => [element('dt', {}, what), element('dd', {}, words[i + 1])])),
    text, element('div', {class: 'bar'},
      element('button', {type: 'button', onclick: () => { said.textContent = app.checked(text.value); }}, 'check it'), said));
}

// What every line reads as; null hides it.
export function found(app, runs, replies) {
  byId('found').hidden = runs === null;
  if (runs === null) return;
  const shown = runs.slice(0, 60);
  fill('found', element('h2', {}, 'What every line reads as ', element('button', {type: 'button', onclick: () => found(app, null)}, 'close')),
    replies.length ? element('p', {}, `Power is cut here and comes on: ${replies.map(reply => short(reply.answer)).join(', ')}`) : null,
    element('table', {}, element('tbody', {}, shown.map(run => element('tr', {}, element('td', {}, run.from === run.to ? `line ${run.from}`
      : `lines ${run.from} to ${run.to}`),
    element('td', {class: run.reading.startsWith('refused') || EXHIBITS.includes(firstWord(run.reading)) ? 'said-lost' : null},
      short(run.reading)))))),
    runs.length > shown.length ? `and ${runs.length - shown.length} more` : null);
}
