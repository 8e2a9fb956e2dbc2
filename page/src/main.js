// The page: what is listened to, and how it starts.

import {App} from './app.js';
import {BoundedEngine} from './bounded.js';
import {byId, copyText, element, fill} from './dom.js';
import {unpacked} from './engine.js';
import {listenToFiles} from './files.js';
import {lessonsOf} from './lessons.js';
import {MACHINES} from './model.js';
import {Program} from './program.js';
import {Reference} from './reference.js';
import {spelledOut} from './trace.js';

const MOST_TIME = 6000;

const MOVES = {
  ArrowRight: app => app.forward(), ArrowLeft: app => app.backward(),
  ArrowDown: app => app.go(app.state.at.command + 1, 0),
  ArrowUp: app => app.go(app.state.at.step ? app.state.at.command : app.state.at.command - 1, 0),
  Home: app => app.go(0, 0), End: app => app.run(),
};
const LETTERS = {
  b: app => app.toggleStop(app.state.at.command), c: app => app.cutHere(), o: app => app.powerOn(), r: app => app.readAll(),
  u: app => app.undo(), y: app => app.redo(), '?': () => byId('keys').showModal(),
};

// What the browser keeps for the next time; nothing if it doesn't allow that.
function kept(name, value) {
  try {
    if (value !== undefined) localStorage.setItem(`pmem-${name}`, value);
    return localStorage.getItem(`pmem-${name}`);
  } catch {
    return null;
  }
}

const isOff = button => button.getAttribute('aria-disabled') === 'true';

function listenToButtons(app) {
  const on = (id, call) => byId(id).addEventListener('click', event => { if (!isOff(event.currentTarget)) call(); });
  on('first', () => MOVES.Home(app));
  on('up', () => MOVES.ArrowUp(app));
  on('back', () => app.backward());
  on('next', () => app.forward());
  on('down', () => MOVES.ArrowDown(app));
  on('last', () => app.run());
  on('cut', () => app.cutHere());
  on('on', () => app.powerOn());
  on('read', () => app.readAll());
  on('undo', () => app.undo());
  on('redo', () => app.redo());
  on('help', () => byId('keys').showModal());
  on('copy', () => copyText(app.state.lines.join('\n') + '\n').then(isDone => isDone && app.tell('The trace is copied.')));
  on('link', async () => {
    await app.settled();
    if (!await copyText(location.href)) return;
    app.tell(location.protocol === 'file:' ? 'The link is copied. It opens on this computer; on another one, put its part from # on behind the '
      + 'address of the page there.' : 'The link to this moment is copied.');
  });
  byId('rows').addEventListener('mouseleave', () => app.explainHere());
  on('theme', () => setTheme(document.documentElement.dataset.theme === 'dark' ? 'light' : 'dark', true));
  byId('letters').checked = kept('letters') !== 'off';
  byId('letters').addEventListener('change', event => kept('letters', event.target.checked ? 'on' : 'off'));
  byId('chosen').addEventListener('change', event => app.open(event.target.value));
  byId('machine').addEventListener('change', event => app.setMachine(event.target.value));
}

function showEditor(app, isOpen) {
  byId('editing').hidden = !isOpen;
  byId('edit').setAttribute('aria-expanded', String(isOpen));
  app.editedFrom = app.state.lines;
  byId('text-fault').textContent = '';
  app.showControls();
  if (isOpen) byId('text').focus();
  else byId('edit').focus();
}

// Calls once the calls have paused.
function paused(call, time) {
  let waiting = null;
  return () => {
    clearTimeout(waiting);
    waiting = setTimeout(call, time);
  };
}

function listenToText(app) {
  byId('edit').addEventListener('click', () => showEditor(app, byId('editing').hidden));
  byId('keep').addEventListener('click', () => showEditor(app, false));
  byId('text').addEventListener('input', paused(() => app.showTextFault(), 250));
  byId('editing').addEventListener('submit', event => {
    event.preventDefault();
    const lines = spelledOut(byId('text').value.replace(/\n+$/, '')).split('\n');
    byId('editing').hidden = true;
    if (app.take({...app.state, lines, stops: [], at: {command: 0, step: 0}})) return showEditor(app, false);
    byId('editing').hidden = false;
    return undefined;
  });
  byId('typed').addEventListener('input', paused(() => {
    const text = spelledOut(byId('typed').value);
    const known = app.reference.command(app.model.machine, text.trim().split(/[ \t]/)[0]);
    const fault = text.trim() ? app.faultOf(text) : null;
    byId('typed-fault').textContent = [fault, known && `${known.form}: ${known.does}`].filter(it => it).join(' · ');
  }, 120));
  byId('own').addEventListener('submit', event => {
    event.preventDefault();
    if (!app.putIn(byId('typed').value)) return;
    byId('typed').value = '';
    byId('typed-fault').textContent = '';
  });
}

// Whether a key is for what has the focus, and not for the trace: a field, a text that is read or scrolled, an open dialog.
function isForFocus(event) {
  const {target} = event;
  if (/^(INPUT|TEXTAREA|SELECT)$/.test(target.tagName) || byId('keys').open) return true;
  if (target.closest?.('#reading')) return true;
  return Boolean(target.closest?.('.scroll')?.matches(':focus-visible')) && /^(Arrow(Left|Right|Up|Down)|Home|End)$/.test(event.key);
}

function listenToKeys(app) {
  document.addEventListener('keydown', event => {
    if (event.key === 'Escape') document.querySelectorAll('#settings[open], .menu[open]').forEach(it => { it.open = false; });
    if (event.ctrlKey || event.metaKey || event.altKey || isForFocus(event)) return;
    const isLetter = Object.hasOwn(LETTERS, event.key) && byId('letters').checked;
    if (!isLetter && !Object.hasOwn(MOVES, event.key)) return;
    event.preventDefault();
    (isLetter ? LETTERS : MOVES)[event.key](app);
  });
  document.addEventListener('click', event => {
    document.querySelectorAll('#settings[open], .menu[open]').forEach(it => { if (!it.contains(event.target)) it.open = false; });
  });
}

function showTab(name) {
  for (const tab of document.querySelectorAll('[role=tab]')) {
    const isShown = tab.id === `tab-${name}`;
    tab.setAttribute('aria-selected', String(isShown));
    tab.tabIndex = isShown ? 0 : -1;
    byId(tab.getAttribute('aria-controls')).hidden = !isShown;
  }
}

// The buttons that lead to a part of the page: shown in a narrow window, and when the keyboard reaches them.
function listenToJumps() {
  for (const button of byId('jumps').children) {
    button.addEventListener('click', () => {
      byId(button.dataset.to).scrollIntoView();
      byId(button.dataset.to).focus({preventScroll: true});
    });
  }
}

function listenToTabs() {
  const tabs = [...document.querySelectorAll('[role=tab]')];
  tabs.forEach((tab, i) => {
    tab.addEventListener('click', () => showTab(tab.id.slice(4)));
    tab.addEventListener('keydown', event => {
      if (event.key !== 'ArrowRight' && event.key !== 'ArrowLeft') return;
      const other = tabs[(i + 1) % tabs.length];
      showTab(other.id.slice(4));
      other.focus();
    });
  });
}

function listenToHistory(app) {
  window.addEventListener('popstate', ({state}) => {
    if (!state?.state) return void app.begin('link');
    [app.past, app.future] = [state.past, state.future];
    return void app.take(state.state, 'history');
  });
}

function setTheme(theme, isChosen = false) {
  document.documentElement.dataset.theme = theme;
  byId('theme').textContent = theme === 'dark' ? 'Light theme' : 'Dark theme';
  if (isChosen) kept('theme', theme);
}

async function programHere() {
  const bytes = await unpacked(byId('module').textContent.trim());
  return new Program(new BoundedEngine(await WebAssembly.compile(bytes), MOST_TIME));
}

async function start() {
  setTheme(kept('theme') ?? (window.matchMedia?.('(prefers-color-scheme: dark)').matches ? 'dark' : 'light'));
  const lessons = lessonsOf(document);
  const groups = [['first step', 'First steps'], ['lesson', 'Lessons'], ['exercise', 'Exercises'], ['example', 'Examples']];
  fill('chosen', element('option', {value: '', hidden: true}, 'a trace of your own'), groups.map(([kind, label]) =>
    element('optgroup', {label}, lessons.filter(lesson => lesson.kind === kind).map(lesson => element('option', {value: lesson.id},
      lesson.title)))));
  fill('machine', Object.entries(MACHINES).map(([name, what]) => element('option', {value: name}, `${name}: ${what}`)));
  const app = new App(await programHere(), lessons, new Reference(JSON.parse(byId('words-of-traces').textContent)));
  window.pmem = app;
  if (history.state?.past) [app.past, app.future] = [history.state.past, history.state.future];
  listenToButtons(app);
  listenToText(app);
  listenToKeys(app);
  listenToTabs();
  listenToJumps();
  listenToFiles(app);
  await app.begin();
  listenToHistory(app);
  document.body.dataset.ready = 'live';
}

start().catch(fault => {
  const notice = byId('notice');
  notice.hidden = false;
  notice.textContent = `The page couldn't start: ${fault}. It needs WebAssembly and DecompressionStream, `
    + 'as in Chrome 97, Firefox 113, Safari 16.4 or later.';
});
