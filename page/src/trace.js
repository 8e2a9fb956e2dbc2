// Traces and replies as text.

export const EXHIBITS = ['forged', 'twin', 'clash'];
const MARKS = ['seal', 'begin'];

export const wordsOf = line => line.split(/[ \t\r]+/).filter(word => word);
export const firstWord = text => text.split(' ', 1)[0];
export const isComment = line => /^[ \t\r]*#/.test(line);

// The commands among the lines of a trace: blank lines and comments are left out.
export function commandsOf(lines) {
  const commands = [];
  lines.forEach((text, line) => {
    const words = wordsOf(text);
    if (words.length && !words[0].startsWith('#')) commands.push({line, text, words, word: words[0]});
  });
  return commands;
}

// The replies that an output holds: for each command its marks and then its answer.
export function repliesOf(text) {
  const replies = [];
  let marks = [];
  for (const line of text.split('\n')) {
    if (!line) continue;
    if (MARKS.includes(firstWord(line))) {
      marks.push(line);
    } else {
      replies.push({marks, answer: line});
      marks = [];
    }
  }
  return replies;
}

// The same for an output with its log (`--log`): each reply also has its accesses in order, and how many tags and digests it took.
export function loggedReplies(text) {
  const replies = [];
  let accesses = [], marks = [], work = null;
  for (const line of text.split('\n')) {
    const [word, first, second] = line.split(' ');
    if (!line) continue;
    if (work === null && word === 'work') {
      work = {tags: Number(first), digests: Number(second)};
    } else if (work === null && word !== 'stop') {
      accesses.push({kind: word, at: Number(first)});
    } else if (MARKS.includes(word)) {
      marks.push(line);
    } else {
      replies.push({accesses, marks, answer: line, tags: work?.tags ?? 0, digests: work?.digests ?? 0});
      [accesses, marks, work] = [[], [], null];
    }
  }
  return replies;
}

export const isExhibit = reply => EXHIBITS.includes(firstWord(reply.answer));
export const isStop = reply => firstWord(reply.answer) === 'stop';
export const isCut = reply => firstWord(reply.answer) === 'cut';

const MOST_SHOWN = 36;

// A long word of hex by its ends; if these are zeros, by what is between them.
function shortHex(word) {
  if (word === word.slice(0, 2).repeat(word.length / 2)) return `${word.slice(0, 2)}..${word.slice(-2)}`;
  const core = /^(?:00)*(.*?)(?:00)*$/.exec(word)[1], first = word.indexOf(core);
  if (first > 0 && first + core.length <= MOST_SHOWN && word.endsWith('0000')) return `${word.slice(0, first + core.length)}..00`;
  const [before, after] = [word.startsWith('0000') ? '00..' : '', word.endsWith('0000') ? '..00' : ''];
  if (!before && !after) return `${word.slice(0, 4)}..${word.slice(-4)}`;
  return before + (core.length > 12 ? `${core.slice(0, 4)}..${core.slice(-4)}` : core) + after;
}

// Long words are shown shortened.
export function short(text) {
  return text.replace(/[^ ]{17,}/g, word => {
    if (/^[0-9]{1,20}$/.test(word)) return word;
    return /^([0-9a-fA-F]{2})+$/.test(word) ? shortHex(word) : `${word.slice(0, 4)}..${word.slice(-4)}`;
  });
}

// Lines of one byte, written as `11*64` or `11..11`, as the program takes them.
export function spelledOut(text) {
  return text.replace(/(^|[ \t])([0-9a-fA-F]{2})(?:\*64|\.\.\2?)(?=[ \t\r]|$)/gm, (_, before, byte) => before + byte.repeat(64));
}

// The same the other way round, for reading and editing.
export function abbreviated(text) {
  return text.replace(/(^|[ \t])([0-9a-fA-F]{2})\2{63}(?=[ \t\r]|$)/gm, '$1$2*64');
}

export const ZEROS = '00'.repeat(64);
// A fuse that no command burns down: what follows isn't cut.
export const NO_FUSE = 'cut 18446744073709551615';

const PLACES = {post: [2], part: [2], write: [1], put: [1], flip: [1], poke: [1], back: [1], move: [1, 2]};

// The data lines below `count` that commands name or tamper with.
export function namedLines(commands, machine, count) {
  const places = {...PLACES, read: [machine === 'run' ? 2 : 1]};
  const lines = commands.flatMap(({word, words}) => (Object.hasOwn(places, word) ? places[word] : []).map(at => Number(words[at])));
  return [...new Set(lines.filter(line => Number.isSafeInteger(line) && line < count))].sort((one, other) => one - other);
}

// A port at which no command puts a write.
export function freePort(commands) {
  const used = new Set(commands.filter(({word}) => word === 'post' || word === 'part').map(({words}) => Number(words[1])));
  return [7, 6, 5, 4, 3, 2, 1, 0].find(port => !used.has(port)) ?? 0;
}
