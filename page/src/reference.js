// What each command does and what each reply means: from reference.json, which a test compares with the pages in docs/.

import {element} from './dom.js';
import {firstWord, short, wordsOf} from './trace.js';

const isSlot = word => word.startsWith('<');

export class Reference {
  constructor({commands, marks, replies}) {
    Object.assign(this, {allCommands: commands, marks, allReplies: replies});
  }

  commands(machine) {
    return this.allCommands.filter(({machines}) => machines.split(' ').includes(machine));
  }

  replies(machine, command) {
    return this.allReplies.filter(({machines, of}) => machines.split(' ').includes(machine)
      && (!command || of.split(' ').includes(command)));
  }

  // The row of a command, or undefined.
  command(machine, word) {
    return this.commands(machine).find(({form}) => firstWord(form) === word);
  }

  // What an answer to a command says, with its numbers.
  answer(machine, command, answer) {
    const row = this.replies(machine, command).find(({form}) => fits(form, answer));
    return row ? filledIn(row, answer) : '';
  }

  mark(mark) {
    const row = this.marks.find(({form}) => fits(form, mark));
    return row ? filledIn(row, mark) : '';
  }
}

function fits(form, text) {
  const words = wordsOf(text), wanted = wordsOf(form);
  return words.length === wanted.length && wanted.every((word, i) => isSlot(word) || word === words[i]);
}

function filledIn({form, says}, text) {
  const words = wordsOf(text);
  const values = Object.fromEntries(wordsOf(form).map((word, i) => [word.slice(1, -1), words[i]]));
  return says.replace(/\{([a-z]+)\}/g, (_, name) => short(values[name])).replace(/\b1 (counter|digest|persist step|write|line)s\b/g, '1 $1');
}

// A sentence of a row without numbers, for the panel.
const openSentence = ({form, says}) => says.replace(/\{([a-z]+)\}/g, '<$1>');

// The panel for one machine.
export function referencePanel(reference, machine) {
  const row = (form, says) => element('tr', {}, element('td', {}, element('code', {}, form)), element('td', {}, says));
  const commands = reference.commands(machine);
  const table = (head, rows) => element('table', {}, element('thead', {}, element('tr', {}, head.map(it => element('th', {scope: 'col'}, it)))),
    element('tbody', {}, rows));
  return [element('h2', {}, `Commands of ${machine}`),
    element('p', {}, 'A line of memory is 64 bytes, written as 128 hex digits; the page also takes ', element('code', {}, '11*64'),
      ' for a line of one byte. ', element('code', {}, '# ..'), ' is a comment.'),
    table(['Command', 'What it does'], commands.map(({form, does}) => row(form, does))),
    element('h2', {}, 'Replies'),
    element('p', {}, 'The last number of most replies is their persist steps: lines and latches that were written before the reply came. '
      + 'Marks stand before the reply.'),
    ...commands.map(({form}) => [element('h3', {}, element('code', {}, firstWord(form))),
      table(['Reply', 'Meaning'], reference.replies(machine, firstWord(form)).map(it => row(it.form, openSentence(it))))]),
    element('h3', {}, 'Marks'), table(['Mark', 'Meaning'], reference.marks.map(it => row(it.form, openSentence(it))))];
}
