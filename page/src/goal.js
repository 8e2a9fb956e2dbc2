// Goals: conditions on a run, its commands with their answers. lessons/goals.py judges in the same way; docs/PLAYGROUND.md has
// the rules.

import {drawnValues, filledWith} from './variants.js';

const ZERO_LINE = '00'.repeat(64);
const MOST_TRIES = 300000;
const TOO_LONG = 'the trace is too long to be judged: leave out what the task doesn\'t need';

const plainWord = word => /^[0-9]{1,20}$/.test(word) ? String(BigInt(word)) : word.toLowerCase();
const plainWords = text => text.split(/[ \t\r]+/).filter(word => word).map(plainWord);
const patternsOf = text => text.split(' ').filter(word => word);

const inWords = values => Object.fromEntries(Object.entries(values).map(([name, value]) => [name, String(value)]));

// A goal, or its variant by a seed: the options that the question fixes, the parts, the values of names that the question gives,
// those that stand in the lesson, and the sentence that a variant adds.
export function goalOf(text, seed = null) {
  const {fixed = {}, parts, given = {}, shown = {}, variant = null, says = ''} = JSON.parse(text);
  const hasVariants = variant !== null;
  const values = seed === null || !hasVariants ? inWords(given) : drawnValues(variant, seed);
  return {fixed, parts, given: values, shown: inWords({...shown, ...given}), says: seed === null ? '' : filledWith(says, values), hasVariants};
}

// The bindings with this word added, or null if it doesn't fit.
function fitted(pattern, word, bound) {
  if (pattern === '*') return bound;
  if (pattern === 'zeros') return word === ZERO_LINE ? bound : null;
  const named = /^(\$[a-z]+)(\+[0-9]+)?$/.exec(pattern);
  if (!named) return pattern.toLowerCase().split('|').includes(word) ? bound : null;
  if (!named[2]) return named[1] in bound ? (bound[named[1]] === word ? bound : null) : {...bound, [named[1]]: word};
  if (!/^[0-9]+$/.test(bound[named[1]] ?? '')) return null;
  return String(BigInt(bound[named[1]]) + BigInt(named[2].slice(1))) === word ? bound : null;
}

function allFitted(patterns, words, bound) {
  const isOpen = patterns[patterns.length - 1] === '...';
  const count = isOpen ? patterns.length - 1 : patterns.length;
  if (isOpen ? words.length < count : words.length !== count) return null;
  return patterns.slice(0, count).reduce((so, pattern, i) => so && fitted(pattern, words[i], so), bound);
}

// The bindings after a command with its answer fitted a text `command -> answer`, or null.
function fitsEvent(pattern, [command, answer], bound) {
  const [given, wanted] = pattern.split('->').map(patternsOf);
  const some = allFitted(given, command, bound);
  return some && allFitted(wanted, answer, some);
}

// Looks for commands that reach a goal. `deepest` is the part and the step that it came to. A `then` is called with the place
// after the last command that was used and the bindings, and says whether all that follows is reached.
class Search {
  constructor(goal, run) {
    this.goal = goal;
    this.events = run.map(([command, answer]) => [plainWords(command), plainWords(answer)]);
    this.tries = 0;
    this.deepest = [0, 0];
  }

  see(pattern, first, bound, then) {
    for (let at = first; at < this.events.length && this.tries < MOST_TRIES; at++) {
      this.tries += 1;
      const found = fitsEvent(pattern, this.events[at], bound);
      if (found && then(at + 1, found)) return true;
    }
    return false;
  }

  step(step, first, bound, then) {
    if (Array.isArray(step)) return this.steps(step, first, bound, then);
    if (typeof step === 'string' || step.see) return this.see(step.see ?? step, first, bound, then);
    if (step['one of']) return step['one of'].some(inner => this.step(inner, first, bound, then));
    if (step['any order']) return this.anyOrder(step['any order'], first, first, bound, then);
    if (step.different) {
      const words = step.different.map(name => name === 'zeros' ? ZERO_LINE : bound[name]);
      return new Set(words).size === words.length && then(first, bound);
    }
    if (step.never) return !this.events.some(event => fitsEvent(step.never, event, bound)) && then(first, bound);
    const words = step.of.split('|');
    return this.events.filter(([command]) => words.includes(command[0])).length <= step['at most'] && then(first, bound);
  }

  steps(steps, first, bound, then) {
    if (!steps.length) return then(first, bound);
    return this.step(steps[0], first, bound, (at, found) => this.steps(steps.slice(1), at, found, then));
  }

  // Each step begins at `first`, and what follows comes after all of them.
  anyOrder(steps, first, last, bound, then) {
    if (!steps.length) return then(last, bound);
    return this.step(steps[0], first, bound, (at, found) => this.anyOrder(steps.slice(1), first, Math.max(last, at), found, then));
  }

  reach(part, step, first, bound) {
    const [deepPart, deepStep] = this.deepest;
    if (part > deepPart || part === deepPart && step > deepStep) this.deepest = [part, step];
    if (part === this.goal.parts.length) return true;
    const {steps} = this.goal.parts[part];
    if (step === steps.length) return this.reach(part + 1, 0, 0, bound);
    return this.step(steps[step], first, bound, (at, found) => this.reach(part, step + 1, at, found));
  }

  // The sentence for the student on the step that wasn't reached; with a variant, what the variant asks for comes after it.
  say() {
    const part = this.goal.parts[this.deepest[0]];
    const {given, says} = this.goal;
    return `${filledWith(part.steps[this.deepest[1]].say ?? part.say, given)} ${says}`.trimEnd();
  }
}

// Null if a run reaches the goal, or a sentence for the student on what is missing. `options` are those of the run, by name;
// without them what the question fixes isn't looked at.
export function missing(goal, run, options = null) {
  const unfit = Object.entries(goal.fixed).filter(([name, value]) => options && String(options[name] ?? '') !== value);
  if (unfit.length) return `This question is for the options ${unfit.map(([name, value]) => `--${name} ${value}`).join(' ')}.`;
  const search = new Search(goal, run);
  if (search.reach(0, 0, 0, goal.given)) return null;
  return search.tries >= MOST_TRIES ? TOO_LONG : search.say();
}
