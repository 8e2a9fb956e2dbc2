// The persist steps of a trace as lanes: the chip and each part of the device, a mark for each step.

import {drawn, element} from './dom.js';
import {isCut, short} from './trace.js';

const LEFT = 8, STEP = 18, NARROW = 16, TOP = 84, ROW = 21, NAMES = 108;
const MOST_IN_PICTURE = 40, MOST_STEPS = 60, STEPS_BEFORE = 16;
const COLORS = {'chip': 'chip', 'data': 'data', 'tag lines': 'tags', 'counter blocks': 'counters', 'tree nodes': 'nodes',
  'shadow': 'shadow'};

export const colorOf = part => `var(--${COLORS[part] ?? 'chip'})`;

// The commands around a moment whose steps there is room for.
function around(model, at) {
  const size = index => Math.max(1, Math.min(MOST_STEPS, model.total(index)));
  let first = Math.min(at.command, model.replies.length), last = first, room = 0;
  while (first > 0 && room + size(first - 1) <= STEPS_BEFORE && at.command - first < 10) room += size(--first);
  while (last < model.replies.length && (last === at.command || room + size(last) <= MOST_STEPS)
    && last - first < 26) room += size(last++);
  return [first, last];
}

// The shape of a part's marks, around a point.
const SHAPES = {
  'data': 'm-6 0a6 6 0 1 0 12 0a6 6 0 1 0 -12 0', 'tag lines': 'm-5 -5h10v10h-10z', 'counter blocks': 'm0 -6l6.5 11h-13z',
  'tree nodes': 'm0 6l6.5 -11h-13z', 'shadow': 'm-2 -6h4v4h4v4h-4v4h-4v-4h-4v-4h4z',
};

function mark(step, x, y) {
  const color = colorOf(step.part);
  const shape = step.part === 'chip' ? 'm0 -7.5l7.5 7.5l-7.5 7.5l-7.5 -7.5z' : SHAPES[step.part];
  if (step.kind === 'unseen' || !shape) return drawn('text', {x, y: y + 4, 'text-anchor': 'middle'}, '?');
  return drawn('path', {d: `M${x} ${y}${shape}`, fill: step.kind === 'latch' ? 'var(--paper)' : color, stroke: color, 'stroke-width': 2});
}

function label(model, index, x, isDue) {
  const {text} = model.commands[index];
  const whole = short(text.trim());
  return drawn('text', {transform: `translate(${x} ${TOP - 7}) rotate(-55)`, style: `font-size:11px;font-weight:${isDue ? 700 : 400}`},
    whole.length > 16 ? whole.slice(0, 15) + '…' : whole);
}

// The strokes that tell power off from a recovery without colour.
function strokes(x, width, height) {
  const starts = Array.from({length: Math.max(1, Math.floor((height - width) / 10))}, (_, i) => TOP + width + 10 * i);
  return drawn('path', {class: 'strokes', d: starts.map(y => `M${x} ${y}l${width} ${-width}`).join(''), stroke: 'var(--edge)', fill: 'none'});
}

// One command's columns, and how wide they are.
function columns(model, index, x, at, parts, go) {
  const total = model.total(index);
  const width = total ? STEP * total : NARROW;
  const height = ROW * parts.length;
  const group = drawn('g');
  const fill = model.chip(index).isOn ? null : model.commands[index].word === 'on' ? 'var(--on)' : 'var(--off)';
  if (fill) group.append(drawn('rect', {x, y: TOP, width, height, fill}));
  if (fill === 'var(--off)') group.append(strokes(x, width, height));
  group.append(label(model, index, x + Math.min(width, STEP) / 2 + 2, index === at.command));
  group.append(drawn('line', {x1: x, x2: x, y1: TOP - 4, y2: TOP + height, stroke: 'var(--line)'}));
  const attack = model.tampered(index);
  if (attack) {
    const y = TOP + ROW * (parts.indexOf(attack.part) + 0.5), middle = x + width / 2;
    group.append(drawn('path', {d: `M${middle - 5} ${y - 5}l10 10m0 -10l-10 10`, stroke: 'var(--lost)', 'stroke-width': 3},
      drawn('title', {}, `${short(model.commands[index].text)}: line ${attack.line} is changed`)));
  }
  for (let step = 1; step <= total; step++) group.append(column(model, index, step, x + STEP * (step - 1), at, parts, go));
  if (isCut(model.replies[index])) {
    group.append(drawn('line', {x1: x + width, x2: x + width, y1: TOP - 4, y2: TOP + height + 6, stroke: 'var(--lost)', 'stroke-width': 2.5,
      'stroke-dasharray': '5 3'}));
  }
  return [group, width];
}

function column(model, index, step, x, at, parts, go) {
  const isDue = index === at.command && step === at.step + 1;
  const isDone = index < at.command || (index === at.command && step <= at.step);
  const found = model.step(index, step);
  return drawn('g', {class: `column${isDone || isDue ? '' : ' later'}`, onclick: () => go(index, step - 1)},
    drawn('rect', {x, y: TOP, width: STEP, height: ROW * parts.length, fill: isDue ? 'var(--due)' : 'transparent',
      stroke: isDue ? 'var(--ink)' : 'none', 'stroke-dasharray': '3 2'}),
    mark(found, x + STEP / 2, TOP + ROW * (Math.max(0, parts.indexOf(found.part)) + 0.5)),
    drawn('title', {}, `step ${step} of ${short(model.texts[index])}: ${found.name}`));
}

function names(parts) {
  const image = drawn('svg', {class: 'names', width: NAMES, height: TOP + ROW * parts.length + 8, 'aria-hidden': 'true'});
  parts.forEach((part, row) => image.append(
    drawn('text', {x: 0, y: TOP + ROW * (row + 0.68), style: `fill:${colorOf(part)};font-weight:600`}, part)));
  return image;
}

// The lanes of these commands; the names of the parts stay in view as the rest is scrolled. `at` is the moment, `go` what a
// click on a step does.
function laneImage(model, [first, last], at, go, says) {
  const parts = model.layout.parts;
  const height = ROW * parts.length;
  const all = drawn('g');
  let x = LEFT, now = LEFT;
  for (let index = first; index < last; index++) {
    if (index === at.command) now = x;
    const [group, width] = columns(model, index, x, at, parts, go);
    all.append(group);
    x += width;
  }
  if (at.command >= last) now = x;
  const here = now + STEP * at.step;
  const image = drawn('svg', {width: x + 60, height: TOP + height + 8, role: 'img', 'aria-label': says},
    parts.map((part, row) => drawn('rect', {x: 0, y: TOP + ROW * row, width: x + 30, height: ROW,
      fill: row % 2 ? 'transparent' : 'var(--back)'})),
    all, at.isWhole ? null : drawn('path', {d: `M${here} ${TOP - 6}v${height + 12}`, stroke: 'var(--ink)', 'stroke-width': 2.5}));
  return {box: element('div', {class: 'lanes'}, names(parts), element('div', {class: 'scroll', tabindex: 0, role: 'region',
    'aria-label': 'Lanes of persist steps, to be scrolled'}, image)), here};
}

// The lanes around a moment.
export function lanes(model, at, go) {
  return laneImage(model, around(model, at), at, go, 'Lanes of persist steps; the table of cuts has each step in words');
}

// The lanes of a whole trace, as a picture.
export function wholeLanes(model, says) {
  const count = model.replies.length;
  return laneImage(model, [Math.max(0, count - MOST_IN_PICTURE), count], {command: count, step: 0, isWhole: true}, () => {}, says).box;
}
