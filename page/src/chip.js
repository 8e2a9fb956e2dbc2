// What is on the chip at a moment: the registers, the writes that wait, the cache; and what each machine has besides.

import {drawn, element, fill} from './dom.js';
import {colorOf} from './lanes.js';
import {short} from './trace.js';

const NOT_SEEN = 'not seen here';

// The registers, each as its name and its value.
function registers(app, {command, step}) {
  const {model} = app;
  const rows = [];
  const root = app.roots.get(`${command}.${step}`);
  if (model.machine === 'run' || model.machine === 'tree') rows.push(['root', root === undefined ? '..' : root === null ? NOT_SEEN : short(root)]);
  const group = model.group(command, step);
  rows.push(['armed group', group ? group.map(line => model.layout.nameOf(line)).join(', ') : 'none']);
  if (model.machine === 'run') {
    const pages = app.pages.get(String(command)) ?? [];
    rows.push(['re-encrypting', pages.length ? pages.map(([page, left]) => `page ${page}, ${left} lines left`).join('; ') : 'no page']);
  }
  const loss = model.loss(command, step);
  if (loss !== null) rows.push(['stop-loss', String(loss)]);
  return rows;
}

// The registers as a table, with what the last step changed marked.
function registerTable(app) {
  const now = registers(app, app.state.at);
  const earlier = app.momentBefore();
  const before = new Map(earlier ? registers(app, earlier) : now);
  return element('dl', {class: 'rows registers'}, now.flatMap(([name, value]) => {
    const isKnown = ![value, before.get(name)].some(it => it === '..' || it === NOT_SEEN);
    const isChanged = isKnown && before.get(name) !== value;
    return [element('dt', {}, name), element('dd', {class: isChanged ? 'changed' : null, title: isChanged ? `before: ${before.get(name)}` : null},
      value, isChanged ? element('span', {class: 'tag'}, 'changed') : null)];
  }));
}

// Everything on the chip.
export function chip(app) {
  const {model} = app;
  const {command, step} = app.state.at;
  const on = model.chip(command);
  const parts = [element('h2', {}, 'On the chip'), element('h3', {}, 'Registers'), registerTable(app)];
  const since = step ? ', before this command' : '';
  if (model.machine === 'run') parts.push(element('h3', {}, `Writes that wait${since}`), queues(on, model.options.queue === 'durable'));
  if (model.machine === 'txn') parts.push(...transaction(app, on, since));
  if (model.machine === 'wear') parts.push(...ring(app, since));
  parts.push(...cache(app, since), element('h3', {}, `Work so far${since}`), work(model.counts(command)));
  fill('chip', parts);
}

function queues(on, isDurable) {
  const ports = on.waiting.map((writes, port) => writes.length ? element('div', {}, `port ${port}: `, element('span', {class: 'chips'},
    writes.map(words => element('span', {}, short(words.slice(2).join(' ')))))) : null).filter(it => it);
  return element('div', {}, ports.length ? ports : 'none', isDurable ? element('p', {class: 'legend'}, 'They outlive power.') : null);
}

function work(counts) {
  return element('dl', {class: 'rows'}, [['lines read', counts.reads], ['lines written', counts.writes], ['latches', counts.latches],
    ['tags', counts.tags], ['digests', counts.digests]].flatMap(([what, count]) => [element('dt', {}, what), element('dd', {}, String(count))]));
}

function transaction(app, on, since) {
  const open = on.open ? [...on.open.entries()] : null;
  const lines = app.model.dataLines;
  return [element('h3', {}, `The open transaction${since}`),
    element('div', {class: 'chips'}, open ? (open.length ? open.map(([at, line]) => element('span', {}, `${at}: ${short(line)}`))
      : 'empty') : 'none'),
    element('h3', {}, `The log${since}`),
    element('div', {}, on.logged
      ? `in force: lines ${on.logged.join(', ')} are in its bodies, device lines ${lines + 1} to ${lines + on.logged.length}`
      : `no transaction is in force: the header, line ${lines} of the device, is zero`)];
}

function ring(app, since) {
  const held = app.model.places(app.state.at.command);
  const head = element('h3', {}, `The ring and its gap${since}`);
  if (!held) return [head, element('div', {}, 'not seen: power is off')];
  const gap = held.indexOf(null), size = held.length, zero = held.indexOf(0);
  const middle = 70, radius = 54;
  const point = place => {
    const turn = 2 * Math.PI * place / size - Math.PI / 2;
    return {cx: middle + radius * Math.cos(turn), cy: middle + radius * Math.sin(turn)};
  };
  const dial = drawn('svg', {width: 140, height: 140, role: 'img', 'aria-label': `a ring of ${size} places; the gap is place ${gap}`},
    drawn('circle', {cx: middle, cy: middle, r: radius, fill: 'none', stroke: 'var(--data)', 'stroke-width': 8}),
    drawn('circle', {...point(gap), r: 8, fill: 'var(--paper)', stroke: 'var(--lost)', 'stroke-width': 3}),
    drawn('circle', {...point(zero), r: 4, fill: 'var(--ink)'}),
    drawn('text', {x: middle, y: middle - 4, 'text-anchor': 'middle'}, `gap at ${gap}`),
    drawn('text', {x: middle, y: middle + 13, 'text-anchor': 'middle', class: 'soft'}, `line 0 at ${zero}`));
  const near = Array.from({length: Math.min(5, size)}, (_, i) => (gap - 2 + i + size) % size);
  return [head, element('div', {class: 'pair'}, dial, element('table', {}, element('tbody', {},
    element('tr', {}, element('th', {scope: 'col'}, 'place'), element('th', {scope: 'col'}, 'line')), near.map(place =>
      element('tr', {}, element('td', {}, String(place)), element('td', {}, held[place] === null ? element('b', {class: 'said-lost'}, 'gap')
        : String(held[place])))))))];
}

// The tree's positions as a picture, each drawn by `of`.
function pyramid(levels, says, of) {
  const wide = 300, tall = 26;
  const image = drawn('svg', {viewBox: `0 0 ${wide} ${tall * (levels + 1)}`, width: wide, class: 'tree', role: 'img', 'aria-label': says});
  for (let level = 0, first = 0; level <= levels; first = 4 * first + 1, level++) {
    const count = 4 ** level, step = wide / count;
    for (let i = 0; i < count; i++) image.append(of(first + i, level, step * (i + 0.5), tall * level + tall / 2, Math.min(step - 2, 30)));
  }
  return image;
}

const cachedInWords = isCached => isCached ? 'cached' : isCached === null ? 'not seen' : 'not cached';

function cache(app, since) {
  const {model} = app;
  const {command} = app.state.at;
  const head = element('h3', {}, `The tree: what is cached${since}`);
  const {levels, pages, firstMeta} = model.layout;
  if (pages > 16) return [head, element('div', {}, 'shown for levels 1 and 2')];
  const cached = app.cached.get(String(command));
  if (!cached) return [head, element('div', {}, model.chip(command).isOn && cached === undefined ? '..' : 'nothing is cached: power is off')];
  const lines = model.device.at(command, 0);
  const named = lines ? model.layout.namedBy(lines) : new Set();
  const versions = model.machine === 'tree' ? model.versions(command) : null;
  const count = cached.filter(it => it).length;
  const says = `${count} of ${cached.length} are cached`;
  const image = pyramid(levels, says, (position, level, x, y, size) =>
    node(model, {position, level, x, y, size, cached, named, versions, firstMeta}));
  return [head, image, element('p', {class: 'legend'}, `${says} (filled).`, lines && model.layout.hasTables
    ? ` ${named.size} are named in the shadow (framed): these may be newer in the cache than on the device.` : '',
  versions ? ' The number is a node\'s version: the writes below it.' : ' The last row is the counter blocks.', strictText(model))];
}

// Which rows of the tree are written with each write.
function strictText({machine, options}) {
  if (machine === 'tree' || !options.persist) return '';
  return options.persist > options.levels ? ' Each write also writes its whole path.'
    : ` Each write also writes its path's lines of the last ${options.persist === 1 ? 'row' : `${options.persist} rows`}.`;
}

function node(model, {position, level, x, y, size, cached, named, versions, firstMeta}) {
  const isCached = cached[position];
  const name = model.layout.nameOf(firstMeta + position);
  return drawn('g', {}, drawn('rect', {x: x - size / 2, y: y - 8, width: size, height: 16, rx: 3,
    fill: isCached ? colorOf(!versions && level === model.layout.levels ? 'counter blocks' : 'tree nodes') : 'var(--off)',
    stroke: named.has(position) ? 'var(--shadow)' : 'none', 'stroke-width': 3, 'stroke-dasharray': isCached === null ? '2 2' : null}),
  versions ? drawn('text', {x, y: y + 4, 'text-anchor': 'middle', style: `font-size:10px${isCached ? ';fill:var(--paper)' : ''}`},
    String(versions[position])) : null,
  drawn('title', {}, `${name}: ${cachedInWords(isCached)}${named.has(position) ? ', named in the shadow' : ''}`));
}
