// The options of each machine: the values that the page takes, and how they are written as arguments. Their defaults and the values
// that the program takes are in the table.

import {OPTION, OPTIONS} from './table.js';

// The page takes fewer values of these, for memories of up to 4,096 lines.
const LEVELS_HERE = [1, 2, 3];
const FEWER = {levels: LEVELS_HERE, persist: [0, ...LEVELS_HERE, LEVELS_HERE.length + 1]};

export const defaults = () => Object.fromEntries(Object.entries(OPTION).map(([name, {is}]) => [name, is]));

// The values to choose an option from, or null if it is typed.
export const choicesOf = name => FEWER[name] ?? OPTION[name].values ?? null;

export function rangeOf(name) {
  const {from, most, digits} = OPTION[name];
  if (choicesOf(name)) return choicesOf(name).join(', ');
  if (digits) return digits[0] === digits[1] ? `${digits[0]} hex digits` : `${digits[0]} to ${digits[1]} hex digits, an even number`;
  return `a number from ${from} to ${most}`;
}

function isValue(name, text) {
  const {from, most, digits} = OPTION[name];
  if (choicesOf(name)) return choicesOf(name).map(String).includes(text);
  if (digits) return /^([0-9a-fA-F]{2})*$/.test(text) && text.length >= digits[0] && text.length <= digits[1];
  return /^[0-9]{1,20}$/.test(text) && BigInt(text) >= BigInt(from) && BigInt(text) <= BigInt(most);
}

// A text as a value of an option, or undefined if the page doesn't take it.
export function valueOf(name, text) {
  const {is, from} = OPTION[name];
  if (text === '' && is === '') return '';
  if (!isValue(name, text)) return undefined;
  if (typeof is === 'number') return Number(text);
  return from === undefined ? text.toLowerCase() : String(BigInt(text));
}

// Why options don't go together, or null if they do: a path has a line on each level, and one more.
export function clash({levels, persist}) {
  return persist <= levels + 1 ? null : `persist is at most ${levels + 1} with levels ${levels}`;
}

// The options that command-line arguments choose, and a sentence for each argument that the page doesn't take.
export function readOptions(machine, words) {
  const options = defaults(), faults = [];
  const given = words.join(' ').replace(/=/g, ' ').split(' ').filter(word => word);
  for (let i = 0; i < given.length; i += 2) {
    const name = given[i].replace(/^--/, ''), text = given[i + 1] ?? '';
    const isKnown = given[i].startsWith('--') && OPTIONS[machine].includes(name);
    const value = isKnown ? valueOf(name, text) : undefined;
    if (value !== undefined && text) options[name] = value;
    else faults.push(isKnown ? `${given[i]} ${text}: the page takes ${rangeOf(name)}` : `${given[i]}: ${machine} has no such option here`);
  }
  const why = clash(options);
  if (!why) return {options, faults};
  return {options: {...options, persist: OPTION.persist.is}, faults: [...faults, `--persist ${options.persist}: ${why}`]};
}

export const optionsOf = (machine, words) => readOptions(machine, words).options;

// The arguments that choose these options: those that aren't the defaults.
export function wordsFor(machine, options) {
  return OPTIONS[machine].filter(name => options[name] !== OPTION[name].is).flatMap(name => [`--${name}`, String(options[name])]);
}

// A word as a shell takes it.
export const quoted = word => /^[A-Za-z0-9_./=-]+$/.test(word) ? word : `'${word.replace(/'/g, `'\\''`)}'`;
