// Elements of the page.

export const byId = id => document.getElementById(id);

// An element with attributes (on.. are listeners, what is null is left out) and children.
export function element(tag, attributes = {}, ...children) {
  return filled(document.createElement(tag), attributes, children);
}

export function drawn(tag, attributes = {}, ...children) {
  return filled(document.createElementNS('http://www.w3.org/2000/svg', tag), attributes, children);
}

function filled(made, attributes, children) {
  for (const [name, value] of Object.entries(attributes)) {
    if (name.startsWith('on')) made.addEventListener(name.slice(2), value);
    else if (value !== null && value !== undefined && value !== false) made.setAttribute(name, value === true ? '' : value);
  }
  made.append(...children.flat(Infinity).filter(child => child !== null && child !== undefined && child !== false));
  return made;
}

// Gives an element of the page new children. What had the focus has it again, and what was scrolled stays so.
export function fill(id, ...children) {
  const box = byId(id);
  const focused = box !== document.activeElement && box.contains(document.activeElement) ? placeOf(document.activeElement, box) : null;
  const scrolled = [...box.querySelectorAll('.scroll')].map(it => [it.scrollLeft, it.scrollTop]);
  box.replaceChildren(...children.flat(Infinity).filter(child => child));
  box.querySelectorAll('.scroll').forEach((it, i) => { if (scrolled[i]) [it.scrollLeft, it.scrollTop] = scrolled[i]; });
  focused?.reduce((at, i) => at?.children[i], box)?.focus?.({preventScroll: true});
}

// The place of an element in another one, as the numbers of children.
function placeOf(inner, outer) {
  const place = [];
  for (let at = inner; at !== outer; at = at.parentElement) place.unshift([...at.parentElement.children].indexOf(at));
  return place;
}

// Copies a text; if the browser doesn't allow it, the text is shown for copying by hand.
export async function copyText(text) {
  try {
    await navigator.clipboard.writeText(text);
    return true;
  } catch {
    window.prompt('Copy this:', text);
    return false;
  }
}
