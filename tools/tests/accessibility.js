// Rules of accessible pages (WCAG 2.2, levels A and AA), as axe and its kind check them. Returns a sentence for each place that breaks one.
const found = [];
const isShown = it => it.checkVisibility ? it.checkVisibility({visibilityProperty: true, opacityProperty: false}) : it.offsetParent !== null;
const place = it => `${it.tagName.toLowerCase()}${it.id ? '#' + it.id : ''}${it.classList.length ? '.' + [...it.classList].join('.') : ''}`;
const tell = (it, what) => found.push(`${place(it)} "${(it.textContent || '').trim().slice(0, 30)}": ${what}`);
const all = css => [...document.querySelectorAll(css)].filter(isShown);
const textOf = ids => ids.split(/\s+/).map(id => document.getElementById(id)?.textContent ?? '').join(' ');

function nameOf(it) {
  if (it.getAttribute('aria-labelledby')) return textOf(it.getAttribute('aria-labelledby'));
  if (it.getAttribute('aria-label')) return it.getAttribute('aria-label');
  if (it.labels?.length) return [...it.labels].map(label => label.textContent).join(' ');
  return it.textContent || it.getAttribute('title') || '';
}

// Names: each control, picture and region has one, in words.
for (const it of all('button, a[href], summary, input, select, textarea, [role=tab]')) {
  if (!/[\p{L}\p{N}]/u.test(nameOf(it))) tell(it, 'has no name in words');
}
for (const it of all('svg[role=img], img, [role=region], [role=toolbar], [role=tablist], section, nav, dialog')) {
  if (!(it.getAttribute('aria-label') || it.getAttribute('aria-labelledby') || it.getAttribute('alt') !== null)) tell(it, 'has no name');
}
for (const it of all('svg')) {
  if (!it.closest('[aria-hidden=true]') && it.getAttribute('role') !== 'img') tell(it, 'is a picture without role img');
}
// Identifiers and references.
const ids = [...document.querySelectorAll('[id]')].map(it => it.id);
for (const id of new Set(ids)) if (ids.filter(it => it === id).length > 1) found.push(`#${id} stands more than once`);
for (const name of ['aria-labelledby', 'aria-describedby', 'aria-controls']) {
  for (const it of document.querySelectorAll(`[${name}]`)) {
    for (const id of it.getAttribute(name).split(/\s+/)) if (!document.getElementById(id)) tell(it, `${name} names ${id}, which isn't there`);
  }
}
// The document: a language, a title, one main part, one title, headings without a gap.
if (!document.documentElement.lang) found.push('the page has no language');
if (!document.title) found.push('the page has no title');
if (all('main').length !== 1) found.push('the page has not one main part');
if (all('h1').length !== 1) found.push('the page has not one title');
let level = 0;
for (const it of all('h1, h2, h3, h4')) {
  const now = Number(it.tagName[1]);
  if (now > level + 1 && level) tell(it, `is a heading of level ${now} below one of level ${level}`);
  level = now;
}
// The keyboard: an order that is the page's, what scrolls can be reached, what is clicked is a control.
for (const it of document.querySelectorAll('[tabindex]')) if (it.tabIndex > 0) tell(it, 'has a place of its own in the order of Tab');
for (const it of all('*')) {
  const style = getComputedStyle(it);
  const scrolls = (/auto|scroll/.test(style.overflowY) && it.scrollHeight > it.clientHeight + 2)
    || (/auto|scroll/.test(style.overflowX) && it.scrollWidth > it.clientWidth + 2);
  if (scrolls && it.tabIndex < 0 && !it.matches('textarea, select, html, body')
    && !it.querySelector('button, a[href], input, select, [tabindex="0"]')) tell(it, 'scrolls, and the keyboard can\'t reach it');
}
if (!all('[aria-current]').length && document.querySelector('#rows li.due')) found.push('no row is marked as the current one');
// The size of what is pressed: 24 px, or room around it.
for (const it of all('button, summary, select, input')) {
  const {width, height} = it.getBoundingClientRect();
  if ((width < 24 || height < 24) && !/checkbox|file/.test(it.type)) tell(it, `is ${Math.round(width)} by ${Math.round(height)} px`);
}
// Tables: heads with a scope.
for (const it of all('th')) if (!it.scope) tell(it, 'is a head without a scope');

// Contrast of text against what is behind it: 4.5:1, or 3:1 for large text.
const channels = color => (color.match(/[\d.]+/g) ?? []).map(Number);
const light = ([red, green, blue]) => {
  const part = value => value / 255 <= 0.04045 ? value / 255 / 12.92 : ((value / 255 + 0.055) / 1.055) ** 2.4;
  return 0.2126 * part(red) + 0.7152 * part(green) + 0.0722 * part(blue);
};
const over = (top, below) => {
  const alpha = top[3] ?? 1;
  return [0, 1, 2].map(i => top[i] * alpha + below[i] * (1 - alpha));
};
function behind(it) {
  if (!it) return [255, 255, 255];
  const color = channels(getComputedStyle(it).backgroundColor);
  return (color[3] ?? 1) === 1 && color.length ? color : over(color.length ? color : [0, 0, 0, 0], behind(it.parentElement));
}
const isFaded = it => it && (Number(getComputedStyle(it).opacity) < 1 || isFaded(it.parentElement));
for (const it of all('body *')) {
  const hasText = [...it.childNodes].some(node => node.nodeType === 3 && node.textContent.trim());
  if (!hasText || it.matches('option, script, style, title, [aria-disabled=true], :disabled') || it.closest('[aria-disabled=true], :disabled')) continue;
  const style = getComputedStyle(it);
  const isSvg = it.namespaceURI.endsWith('svg');
  if (isSvg && it.previousElementSibling?.tagName === 'rect') continue;
  const back = behind(isSvg ? it.closest('div') : it);
  const ink = over(channels(isSvg ? style.fill : style.color), back);
  const [high, low] = [light(ink), light(back)].sort((one, other) => other - one);
  const ratio = (high + 0.05) / (low + 0.05);
  const size = parseFloat(style.fontSize), isLarge = size >= 24 || (size >= 18.66 && Number(style.fontWeight) >= 700);
  if (ratio < (isLarge ? 3 : 4.5)) tell(it, `has a contrast of ${ratio.toFixed(2)}`);
  if (isFaded(it)) tell(it, 'is faded');
}
return [...new Set(found)];
