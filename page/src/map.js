// The device as a map of cells, and one of its lines: its bytes for the first controller, which can show them, and how often it was
// written for the other machines.

import {byId, drawn, element, fill} from './dom.js';
import {colorOf} from './lanes.js';
import {bytesOf} from './layout.js';
import {short} from './trace.js';

const SIDE = 8, SIDE_LEFT = 104, ACROSS = 48;

// Which lines the last step changed, and which were changed since the device was new.
function changes(app) {
  const {model} = app;
  const {command, step} = app.state.at;
  const lines = model.device.at(command, step), before = app.before(), first = model.device.at(0, 0);
  if (lines) {
    return {lines, before, last: line => before !== null && lines[line] !== before[line], ever: line => lines[line] !== first[line]};
  }
  const written = model.written(command, step);
  const [at, last] = step ? [command, step] : [command - 1, command ? model.total(command - 1) : 0];
  const isLast = line => written.get(line)?.last[0] === at && written.get(line)?.last[1] === last;
  return {lines: null, before: null, written, last: isLast, ever: line => written.has(line)};
}

export function device(app) {
  const {model} = app;
  const found = changes(app);
  const image = map(app, found);
  if (image.parentElement !== byId('device')) {
    fill('device', element('h2', {}, 'The device'), image, element('p', {class: 'legend'},
      'Full colour: changed by the last step. Light: changed since the device was new.'),
    element('form', {class: 'bar', onsubmit: event => event.preventDefault()}, element('label', {}, 'Line ', element('input', {id: 'line-number',
      type: 'number', min: 0, max: model.layout.size - 1, onchange: event => app.choose(Number(event.target.value))}))),
    element('div', {id: 'line'}));
  }
  const number = byId('line-number');
  if (document.activeElement !== number) number.value = app.state.line ?? '';
  fill('line', app.state.line === null ? element('p', {class: 'legend'}, 'Choose a line to see what it holds.')
    : found.lines ? bytes(app, found) : writtenLine(app, found));
}

// The map is made once for a layout; then only the cells that look otherwise than before are changed.
function map(app, found) {
  const {layout, machine} = app.model;
  const key = `${machine}.${layout.levels}.${layout.size}`;
  if (app.map?.key !== key) app.map = newMap(app, layout, key);
  const {cells, looks, image} = app.map;
  cells.forEach((cell, line) => {
    const look = (found.last(line) ? 2 : found.ever(line) ? 1 : 0) + (app.state.line === line ? 4 : 0);
    if (look === looks[line]) return;
    looks[line] = look;
    cell.setAttribute('class', `cell${look & 4 ? ' chosen' : ''}`);
    cell.setAttribute('style', look & 3 ? `fill:${colorOf(layout.partOf(line))};fill-opacity:${look & 2 ? 1 : 0.45}` : '');
  });
  return image;
}

function newMap(app, layout, key) {
  const cells = [];
  let y = 0;
  const groups = layout.regions.map(([part, from, count]) => {
    for (let i = 0; i < count; i++) {
      cells[from + i] = drawn('rect', {class: 'cell', x: SIDE_LEFT + SIDE * (i % ACROSS), y: y + SIDE * Math.floor(i / ACROSS),
        width: SIDE - 1, height: SIDE - 1, 'data-line': from + i}, drawn('title', {}, `line ${from + i}: ${layout.nameOf(from + i)}`));
    }
    const label = drawn('text', {x: 0, y: y + 10, style: `fill:${colorOf(part)};font-weight:600`}, part);
    y += Math.max(SIDE * Math.ceil(count / ACROSS), 10) + 8;
    return drawn('g', {}, label, cells.slice(from, from + count));
  });
  const image = drawn('svg', {class: 'map', viewBox: `0 0 ${SIDE_LEFT + SIDE * ACROSS} ${y}`, role: 'img',
    'aria-label': `all ${layout.size} lines of the device; choose one by its number below`, onclick: event => {
      const line = event.target.dataset?.line;
      if (line !== undefined) app.choose(Number(line));
    }}, groups);
  return {key, cells, looks: cells.map(() => 0), image};
}

// A line of the device of a machine that doesn't show bytes.
function writtenLine(app, found) {
  const {model} = app;
  const line = Math.min(app.state.line, model.layout.size - 1);
  const one = found.written.get(line);
  const last = one ? `, last by ${one.last[1] ? `step ${one.last[1]} of ` : ''}` : '';
  return element('div', {id: 'bytes'}, element('h3', {}, `Line ${line}: ${model.layout.nameOf(line)}`),
    element('p', {}, one ? `written ${one.count} time${one.count === 1 ? '' : 's'}${last}` : 'not written since the device was new',
      one ? element('code', {}, short(model.texts[one.last[0]])) : null),
    element('p', {class: 'legend'}, `No command of ${model.machine} shows the bytes of a line; how often it was written is from the program's log.`));
}

// The bytes of a line, what they mean, and what an attacker can do to it.
function bytes(app, found) {
  const {model} = app;
  const line = Math.min(app.state.line, model.layout.size - 1);
  const now = bytesOf(found.lines[line]);
  const old = found.before ? bytesOf(found.before[line]) : now;
  const isFree = app.state.at.step === 0 && !model.fault;
  const put = (text, says, isOff) => element('button', {type: 'button', disabled: isOff, onclick: () => app.putIn(text)}, says);
  return element('div', {id: 'bytes'}, element('h3', {}, `Line ${line}: ${model.layout.nameOf(line)}`), byteGrid(app, now, old),
    bits(app, line, now, isFree),
    element('div', {class: 'bar'}, put('snap', 'keep a copy of the device', !isFree),
      put(`back ${line}`, 'put this line back', !isFree || !model.chip(app.state.at.command).hasSnapshot)),
    element('dl', {class: 'rows'}, model.layout.readLine(line, now).flatMap(([what, value]) =>
      [element('dt', {}, what), element('dd', {}, value)])));
}

const ARROWS = {ArrowRight: 1, ArrowLeft: -1, ArrowDown: 8, ArrowUp: -8};

// One byte can be reached by Tab; arrows lead from it to the others.
function byteGrid(app, now, old) {
  const reached = app.byte ?? 0;
  const move = event => {
    const to = Number(event.target.dataset.byte) + (ARROWS[event.key] ?? NaN);
    if (!(to >= 0 && to < 64)) return;
    event.preventDefault();
    event.stopPropagation();
    event.currentTarget.children[to].focus();
  };
  return element('div', {class: 'bytes', role: 'group', 'aria-label': 'bytes; arrows lead from one to the next', onkeydown: move},
    [...now].map((value, at) => element('button', {type: 'button', class: value !== old[at] ? 'changed' : null, 'data-byte': at,
      tabindex: at === reached ? 0 : -1, 'aria-pressed': String(app.byte === at), title: `byte ${at}`,
      'aria-label': `byte ${at}: ${value.toString(16).padStart(2, '0')}`, onclick: () => app.chooseByte(at)},
    value.toString(16).padStart(2, '0'))));
}

function bits(app, line, now, isFree) {
  if (app.byte === null) return null;
  return element('div', {class: 'bits'}, `byte ${app.byte}:`, [7, 6, 5, 4, 3, 2, 1, 0].map(bit =>
    element('button', {type: 'button', disabled: !isFree, 'aria-label': `flip bit ${8 * app.byte + bit}`, title: `flip bit ${8 * app.byte + bit}`,
      onclick: () => app.putIn(`flip ${line} ${8 * app.byte + bit}`)}, String(now[app.byte] >> bit & 1))),
  element('span', {}, isFree ? 'choose a bit to flip it' : 'only between two commands'));
}
