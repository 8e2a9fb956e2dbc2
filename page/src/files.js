// Traces as files: saved with their machine and options in a first comment, and opened again.

import {byId, element} from './dom.js';
import {MACHINES} from './model.js';
import {defaults, readOptions, wordsFor} from './options.js';
import {spelledOut} from './trace.js';

const HEAD = /^# pmem: ([a-z]+)((?: --[a-z-]+[ =][^ ]+)*)[ \r]*$/;

// A trace as a file holds it.
export function fileText({machine, options, lines}) {
  const head = ['# pmem:', machine, ...wordsFor(machine, options)].join(' ');
  return [head, ...lines.filter((line, at) => at || !HEAD.test(line))].join('\n') + '\n';
}

// The text of a file in UTF-8 or UTF-16, without its byte order mark.
export function decoded(bytes) {
  const isLittle = bytes[0] === 0xff && bytes[1] === 0xfe, isBig = bytes[0] === 0xfe && bytes[1] === 0xff;
  return new TextDecoder(isLittle ? 'utf-16le' : isBig ? 'utf-16be' : 'utf-8').decode(bytes);
}

// A file's text as what it changes of a state, with a sentence for each option that the page doesn't take.
export function readFile(text, state) {
  const lines = spelledOut(text.replace(/\r\n/g, '\n').replace(/\n+$/, '')).split('\n');
  const head = HEAD.exec(lines[0] ?? '');
  if (!head || !Object.hasOwn(MACHINES, head[1])) return {machine: state.machine, options: state.options, lines, faults: []};
  const {options, faults} = readOptions(head[1], head[2].trim().split(' ').filter(word => word));
  return {machine: head[1], options: {...defaults(), ...options}, lines: lines.slice(1), faults};
}

function save(app) {
  const {lesson} = app.state;
  const name = lesson ? `${/^[0-9]/.test(lesson) ? 'lesson-' : ''}${lesson}.trace` : 'mine.trace';
  const address = URL.createObjectURL(new Blob([fileText(app.state)], {type: 'text/plain'}));
  const link = element('a', {href: address, download: name});
  document.body.append(link);
  link.click();
  link.remove();
  setTimeout(() => URL.revokeObjectURL(address), 1000);
  app.tell(`Saved as ${name}.`);
}

async function openFile(app, file) {
  if (file.size > 2e6) return app.tell('This file is too long for the page.');
  const {faults, ...read} = readFile(decoded(new Uint8Array(await file.arrayBuffer())), app.state);
  const isTaken = app.take({...app.state, ...read, stops: [], at: {command: 0, step: 0}});
  if (isTaken) app.tell(faults.length ? `${file.name}: ${faults.join('; ')}` : `${file.name} is open.`);
  return isTaken;
}

export function listenToFiles(app) {
  byId('save').addEventListener('click', () => save(app));
  byId('file').addEventListener('change', event => {
    const [file] = event.target.files;
    if (file) openFile(app, file);
    event.target.value = '';
  });
}
