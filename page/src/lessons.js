// The lessons and exercises that are in the page.

import {byId, element, fill} from './dom.js';
import {goalOf, missing} from './goal.js';
import {MOST_SEED, variedText, variedTrace} from './variants.js';
import {wholeLanes} from './lanes.js';
import {Model} from './model.js';
import {defaults, optionsOf} from './options.js';

export function lessonsOf(document) {
  return JSON.parse(document.getElementById('lessons').textContent);
}

// The lines of a lesson's trace, or of its variant by a seed.
function linesOf(lesson, part, seed) {
  const {given, shown} = seed === null ? {} : goalOf(lesson.goal, seed);
  const trace = seed === null ? part.trace : variedTrace(part.trace, shown, given);
  return trace.replace(/\n$/, '').split('\n');
}

// A lesson's trace, machine and options as the page's state.
export function stateOf(lesson, part = lesson, seed = null) {
  return {...blankState(), machine: part.machine, options: optionsOf(part.machine, part.words), lines: linesOf(lesson, part, seed),
    lesson: lesson.id, seed};
}

export function blankState() {
  return {machine: 'run', options: defaults(), lines: [], at: {command: 0, step: 0}, lesson: null, seed: null, line: null, stops: [],
    compared: null};
}

export function isAsGiven(state, lesson) {
  return lesson !== null && state.machine === lesson.machine && state.lines.join('\n') === linesOf(lesson, lesson, state.seed).join('\n')
    && JSON.stringify(state.options) === JSON.stringify(optionsOf(lesson.machine, lesson.words));
}

// A text as the seed of a variant of a lesson, or null if there is no such variant.
export function seedIn(text, lesson) {
  const isSeed = /^[0-9]{1,4}$/.test(text) && Number(text) >= 1 && Number(text) <= MOST_SEED;
  return isSeed && lesson?.goal && goalOf(lesson.goal).hasVariants ? Number(text) : null;
}

// A lesson by its number or name as an address has it: 2 is lesson 02.
export function lessonNamed(lessons, name) {
  return lessons.find(({id}) => id === name) ?? lessons.find(({id}) => id === String(name).padStart(2, '0')) ?? null;
}

// Whether the trace as it stands reaches the goal of its lesson, in words.
export function verdict(lesson, model, seed = null) {
  if (model.machine !== lesson.goalMachine) return `Not yet: the goal is for the machine ${lesson.goalMachine}.`;
  if (model.fault) return `Not yet: the run stops with ${model.fault}.`;
  const why = missing(goalOf(lesson.goal, seed), model.run(), model.options);
  return why === null ? 'Yes: the program\'s replies reach the goal.' : `Not yet. ${why}`;
}

// The lesson before or after one, of its kind.
function neighbour(app, lesson, step) {
  const same = app.lessons.filter(({kind}) => kind === lesson.kind);
  return same[same.indexOf(lesson) + step] ?? null;
}

function neighbours(app, lesson) {
  const button = (other, says, id) => element('button', {type: 'button', id, disabled: !other, title: other?.title,
    onclick: () => app.open(other.id)}, says);
  const same = app.lessons.filter(({kind}) => kind === lesson.kind);
  return element('nav', {class: 'bar', 'aria-label': `${lesson.kind}s`}, button(neighbour(app, lesson, -1), '← previous'),
    element('span', {class: 'soft'}, `${lesson.kind} ${same.indexOf(lesson) + 1} of ${same.length}`), button(neighbour(app, lesson, 1), 'next →'));
}

// The picture of a lesson: its trace as it was given, drawn from the program's log.
function picture(app, lesson, says) {
  const image = app.inTime(() => wholeLanes(new Model(app.program, lesson.machine, optionsOf(lesson.machine, lesson.words),
    lesson.trace.split('\n')), says), null);
  return element('figure', {}, image, element('figcaption', {}, says));
}

function textOf(app, lesson, part) {
  const text = element('div', {class: 'text'});
  text.innerHTML = part.text;
  text.querySelectorAll('span.picture').forEach(place => place.replaceWith(picture(app, part.machine ? part : lesson, place.textContent)));
  text.querySelectorAll('table').forEach(table => {
    const scroll = element('div', {class: 'wide', tabindex: 0, role: 'region', 'aria-label': 'a table'});
    table.replaceWith(scroll);
    scroll.append(table);
  });
  return text;
}

// The lesson's text with the question of a variant: its numbers are exchanged, and its own sentence is added.
function variedQuestion(app, lesson, text) {
  const {given, shown, says} = goalOf(lesson.goal, app.state.seed);
  const parts = [...text.children];
  const first = lesson.kind === 'exercise' ? -1 : parts.findIndex(it => /^H/.test(it.tagName) && it.textContent === 'A question');
  const next = parts.findIndex((it, i) => i > first && /^H/.test(it.tagName));
  const asked = parts.slice(first + 1, next < 0 ? parts.length : next).filter(it => !/^About /.test(it.textContent));
  for (const part of asked) {
    const walk = document.createTreeWalker(part, NodeFilter.SHOW_TEXT);
    while (walk.nextNode()) walk.currentNode.data = variedText(walk.currentNode.data, shown, given);
  }
  asked[0]?.before(element('p', {class: 'variant'}, element('b', {}, `Variant ${app.state.seed}. `), says));
}

// The field for the number of a variant, which a teacher gives out.
function variantField(app, lesson) {
  if (!goalOf(lesson.goal).hasVariants) return null;
  const choose = event => {
    const text = event.target.value.trim(), seed = seedIn(text, lesson);
    if (text && seed === null) return app.tell(`A variant is a number from 1 to ${MOST_SEED}.`);
    return app.open(lesson.id, seed);
  };
  return element('label', {class: 'soft'}, 'Variant ', element('input', {id: 'variant', inputmode: 'numeric', size: 5, maxlength: 4,
    title: 'A number from your teacher; empty for the question as it stands', value: app.state.seed ?? '', onchange: choose}));
}

function answerPart(app, lesson) {
  const {seed} = app.state;
  const note = seed === null ? null : element('p', {class: 'soft'}, 'This answer is for the question without a variant.');
  return element('details', {}, element('summary', {}, 'Show an answer'), note, textOf(app, lesson, lesson.answer),
    element('button', {type: 'button', onclick: () => app.take({...stateOf(lesson, lesson.answer), seed})}, 'open its trace'));
}

function question(app, lesson) {
  const {seed} = app.state;
  const judge = () => { byId('verdict').textContent = verdict(lesson, app.model, seed); };
  return element('div', {class: 'question'}, element('h3', {}, 'Try an answer'),
    element('p', {}, 'Change the trace: cut power, put commands in, edit it as text, choose options. Then:'),
    element('div', {class: 'bar'}, element('button', {type: 'button', id: 'judge', class: 'main', onclick: judge}, 'check my trace'),
      element('button', {type: 'button', onclick: () => app.open(lesson.id, seed)}, 'start again'), variantField(app, lesson)),
    element('p', {class: 'verdict', role: 'status', id: 'verdict'}), lesson.answer ? answerPart(app, lesson) : null);
}

export function showLesson(app, lesson) {
  byId('lesson').scrollTop = 0;
  if (!lesson) {
    return fill('lesson', element('h2', {}, 'A trace of your own'), element('p', {},
      'Step through it with ▶, cut power anywhere, flip bits of the device. Choose a lesson above to read one.'));
  }
  const text = textOf(app, lesson, lesson);
  if (app.state.seed !== null) variedQuestion(app, lesson, text);
  fill('lesson', neighbours(app, lesson), element('h2', {}, lesson.title), text,
    lesson.goal ? question(app, lesson) : null, lesson.kind === 'example' ? null : neighbours(app, lesson));
}
