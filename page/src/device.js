// The device's bytes at each moment of a trace of the first controller: the trace is run again with a cut there, and then
// `peek` shows every line. The other machines have no command that shows a line.

import {isExhibit, NO_FUSE} from './trace.js';

const MOST_KEPT = 120000;

export class Device {
  constructor(model) {
    this.model = model;
    this.states = new Map();
    this.size = 0;
    this.peeks = Array.from({length: model.layout.size}, (_, line) => `peek ${line}`);
  }

  // All lines after `step` steps of a command; null if nothing can be asked any more, after an exhibit.
  at(index, step) {
    const {model} = this;
    if (model.machine !== 'run' || index > model.replies.length) return null;
    if (step && step >= model.total(index)) return this.at(index + 1, 0);
    const key = `${index}.${step}`;
    if (this.states.has(key)) return this.states.get(key);
    if (model.replies.slice(0, index).some(isExhibit)) return null;
    const script = model.scriptTo(index, step);
    const lines = model.ask(index, [...script, ...this.peeks]).slice(index + script.length).map(reply => reply.answer.slice(4));
    this.keep(key, lines);
    return lines;
  }

  // Keeps a state, with the lines that it shares with the first one, and drops the oldest if there are too many.
  keep(key, lines) {
    const first = this.states.get('0.0');
    this.states.set(key, first ? lines.map((line, at) => line === first[at] ? first[at] : line) : lines);
    for (const old of this.states.keys()) {
      if (this.states.size * lines.length <= MOST_KEPT) break;
      if (old !== '0.0' && old !== key) this.states.delete(old);
      else if (this.states.size <= 2) break;
    }
  }

  // The root register, as a refusal of recovery names it: the device is put back as it was new, or a bit of a metadata line is
  // turned, and power comes on. Null if no refusal names it, or the machine's device can't be changed.
  rootAt(index, step) {
    const {model} = this;
    if (model.machine === 'tree') return this.rootOfTree(index, step);
    const lines = this.at(index, step), first = this.at(0, 0);
    if (!lines) return null;
    const back = lines.flatMap((line, at) => line === first[at] ? [] : [`poke ${at} ${first[at]}`]);
    const {firstMeta, nodes, pages} = model.layout;
    const turned = Array.from({length: Math.min(24, nodes + pages)}, (_, x) => ['off', `flip ${firstMeta + x} 0`, 'on']);
    return this.refused(index, step, [...back, 'on', ...turned.flat()], 'root');
  }

  rootOfTree(index, step) {
    const {firstShadow} = this.model.layout;
    const lines = ['11', '22'].map(byte => [`poke ${firstShadow} ${byte.repeat(64)}`, 'on', 'off']);
    return this.refused(index, step, lines.flat(), 'shadow');
  }

  refused(index, step, script, what) {
    const replies = this.model.ask(index, [...this.model.scriptTo(index, step), NO_FUSE, 'off', ...script]).slice(index);
    const found = replies.find(({answer}) => answer.startsWith(`refused ${what} `));
    return found ? found.answer.split(' ')[2] : null;
  }

  // Which pages are under re-encryption before a command, each with the lines that are left, as `turn` resseals them.
  pagesAt(index) {
    const {model} = this;
    const begun = model.replies.slice(0, index).flatMap(reply => reply.marks).filter(mark => mark.startsWith('begin ')).length;
    if (model.machine !== 'run' || !begun || !model.chip(index).isOn) return [];
    const asked = model.askLogged(index, [NO_FUSE, ...Array(65 * begun).fill('turn')]).slice(index + 1);
    const left = new Map();
    for (const reply of asked) {
      const seal = reply.marks.find(mark => mark.startsWith('seal '));
      if (!reply.answer.startsWith('ok') || !seal) break;
      const page = Math.floor(Number(seal.split(' ')[1]) / 64);
      left.set(page, (left.get(page) ?? 0) + 1);
    }
    return [...left];
  }
}
