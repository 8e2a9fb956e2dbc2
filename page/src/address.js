// The page's state as its address: a lesson and a moment, or a whole trace with its options. What is read from an address is
// checked: what the page doesn't take is left out, with a sentence that says so.

import {MACHINES} from './model.js';
import {readOptions, wordsFor} from './options.js';
import {isComment} from './trace.js';

const LONGEST_READABLE = 240;

// A line of one byte is written in few letters, as 11x64.
const shortened = word => /^([0-9a-fA-F]{2})\1{7,63}$/.test(word) ? `${word.slice(0, 2)}x${word.length / 2}` : word;

function lengthened(word) {
  const same = /^([0-9a-fA-F]{2})x([0-9]{1,2})$/.exec(word);
  return same ? same[1].repeat(Math.min(64, Number(same[2]))) : word;
}

const escaped = text => encodeURIComponent(text).replace(/_/g, '%5F').replace(/~/g, '%7E').replace(/%20/g, '_');

// A trace that can be read in the address: words between _, lines between ~.
export function readable(lines) {
  return lines.map(line => escaped(isComment(line) ? line : line.trim().split(/[ \t\r]+/).map(shortened).join(' '))).join('~');
}

export function fromReadable(text) {
  return text.split('~').map(part => {
    const line = decodeURIComponent(part.replace(/[_+]/g, ' '));
    return isComment(line) ? line : line.split(' ').map(lengthened).join(' ');
  });
}

async function through(stream, bytes) {
  return new Uint8Array(await new Response(new Blob([bytes]).stream().pipeThrough(stream)).arrayBuffer());
}

// A long trace in few letters: deflated, in base64 for addresses.
export async function deflated(text) {
  const bytes = await through(new CompressionStream('deflate-raw'), new TextEncoder().encode(text));
  return btoa(Array.from(bytes, byte => String.fromCharCode(byte)).join('')).replace(/\+/g, '-').replace(/\//g, '_').replace(/=+$/, '');
}

// A deflated text again; at most `most` bytes are taken.
export async function inflated(text, most) {
  const packed = Uint8Array.from(atob(text.replace(/-/g, '+').replace(/_/g, '/')), letter => letter.charCodeAt(0));
  const reader = new Blob([packed]).stream().pipeThrough(new DecompressionStream('deflate-raw')).getReader();
  const parts = [];
  for (let size = 0; ;) {
    const {done, value} = await reader.read();
    if (done) break;
    size += value.length;
    if (size > most) throw new RangeError('too long');
    parts.push(value);
  }
  return new TextDecoder().decode(await new Blob(parts).arrayBuffer());
}

// The part of an address that holds a trace, in the shorter of both forms.
export async function traceAddress(lines) {
  const plain = `trace=${readable(lines)}`;
  if (plain.length <= LONGEST_READABLE || typeof CompressionStream !== 'function') return plain;
  const packed = `z=${await deflated(lines.join('\n'))}`;
  return packed.length < plain.length ? packed : plain;
}

// The address of a state. `trace` is the part that holds its trace, or null if the trace is its lesson's.
export function addressOf(state, trace) {
  const parts = [];
  if (state.lesson) parts.push(`lesson=${state.lesson}`);
  if (state.lesson && state.seed !== null) parts.push(`seed=${state.seed}`);
  if (trace !== null || !state.lesson) {
    const words = wordsFor(state.machine, state.options).join('_');
    parts.push(`machine=${state.machine}`, ...(words ? [`options=${words}`] : []), ...(trace ? [trace] : []));
  }
  parts.push(`at=${state.at.command}.${state.at.step}`);
  if (state.line !== null) parts.push(`line=${state.line}`);
  if (state.stops.length) parts.push(`stops=${state.stops.join('.')}`);
  if (state.compared) parts.push(`compare=${[state.compared.machine, ...wordsFor(state.compared.machine, state.compared.options)].join('_')}`);
  return '#' + parts.join('&');
}

function partsOf(hash) {
  const said = new Map();
  for (const part of hash.replace(/^#/, '').split('&')) {
    const [name, ...rest] = part.split('=');
    if (name && !said.has(name)) said.set(name, rest.join('='));
  }
  return said;
}

const isNumber = text => /^[0-9]{1,6}$/.test(text);

function machineIn(text, faults) {
  if (Object.hasOwn(MACHINES, text)) return text;
  faults.push(`there is no machine ${text}`);
  return 'run';
}

async function linesIn(said, most, faults) {
  try {
    if (said.has('z')) return (await inflated(said.get('z'), most)).split('\n');
    return said.has('trace') ? fromReadable(said.get('trace')) : null;
  } catch {
    faults.push('its trace is damaged or too long');
    return null;
  }
}

// What an address says, with a sentence for each part that the page doesn't take. `most` is how long a trace may be.
export async function readAddress(hash, most) {
  const said = partsOf(hash), faults = [];
  const moment = /^([0-9]{1,6})(?:\.([0-9]{1,6}))?$/.exec(said.get('at') ?? '0.0');
  if (!moment) faults.push('its moment isn\'t two numbers with a dot between them');
  const machine = machineIn(said.get('machine') ?? 'run', faults);
  const chosen = readOptions(machine, (said.get('options') ?? '').split('_'));
  faults.push(...chosen.faults);
  const line = said.get('line') ?? null;
  if (line !== null && !isNumber(line)) faults.push(`there is no line ${line}`);
  return {lesson: said.get('lesson') ?? null, seed: said.get('seed') ?? null, machine, options: chosen.options, faults,
    at: {command: Number(moment?.[1] ?? 0), step: Number(moment?.[2] ?? 0)},
    lines: await linesIn(said, most, faults), line: line !== null && isNumber(line) ? Number(line) : null,
    stops: (said.get('stops') ?? '').split('.').filter(isNumber).map(Number), compared: comparedIn(said.get('compare'), faults)};
}

function comparedIn(text, faults) {
  if (!text) return null;
  const [machine, ...words] = text.split('_');
  if (!Object.hasOwn(MACHINES, machine)) {
    faults.push(`there is no machine ${machine}`);
    return null;
  }
  const {options, faults: more} = readOptions(machine, words);
  faults.push(...more);
  return {machine, options};
}
