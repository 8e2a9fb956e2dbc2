// Variants of the questions, by a seed: other lines, ports and bits. lessons/variants.py draws the same values.

export const MOST_SEED = 9999;
const MULTIPLIERS = [617, 401, 229, 127];
const LINE_BYTES = 64;
const KINDS_OF_NUMBERS = {'post 4': 'port line', 'part 5': 'port line', 'read 3': 'port line', 'read 2': 'line', 'drain 2': 'port', 'fence 2': 'port',
  'write 3': 'line', 'put 3': 'line', 'place 2': 'line', 'peek 2': 'line', 'poke 3': 'line', 'back 2': 'line', 'flip 3': 'line bit',
  'move 3': 'line line'};

// The value of a sum as `1024 + $a / 4`.
function computed(rule, values) {
  return rule.split(' + ').reduce((total, term) => {
    const numbers = term.split(/ [*/] /).map(word => Number(values[word] ?? word));
    const signs = [...term.matchAll(/ ([*/]) /g)].map(found => found[1]);
    return total + numbers.slice(1).reduce((so, it, i) => signs[i] === '*' ? so * it : Math.floor(so / it), numbers[0]);
  }, 0);
}

// The values of a variant's names for a seed from 1 on.
export function drawnValues(variant, seed) {
  const values = {};
  let count = 0;
  for (const [name, rule] of Object.entries(variant)) {
    if (typeof rule === 'string') values[name] = String(computed(rule, values));
    else if ('from' in rule) values[name] = String(rule.from + seed * MULTIPLIERS[count++ % MULTIPLIERS.length] % (rule.to - rule.from + 1));
    else {
      const at = computed(rule.byte, values), value = computed(rule.value, values);
      values[name] = '00'.repeat(at) + value.toString(16).padStart(2, '0') + '00'.repeat(LINE_BYTES - 1 - at);
    }
  }
  return values;
}

// A sentence with the values of its names, as $a.
export const filledWith = (text, values) => text.replace(/\$[a-z]+/g, name => values[name] ?? name);

const kindOf = name => ['port', 'bit'].find(kind => name.startsWith(`$${kind}`)) ?? 'line';

// For each number that stands in a lesson, the one of the variant.
function exchanged(shown, values, kind = '') {
  return new Map(Object.keys(shown).filter(name => name in values && (!kind || kindOf(name) === kind)).map(name => [shown[name], values[name]]));
}

export function variedText(text, shown, values) {
  const other = exchanged(shown, values);
  return text.replace(/(?<![\w.])\d+(?![\w.]\w|\w)/g, number => other.get(number) ?? number);
}

export function variedTrace(trace, shown, values) {
  const other = Object.fromEntries(['port', 'line', 'bit'].map(kind => [kind, exchanged(shown, values, kind)]));
  const variedComment = (_, name, ...numbers) => {
    const names = other[/^port/i.test(name) ? 'port' : 'line'];
    return `${name} ${numbers.slice(0, 2).filter(it => it).map(it => names.get(it) ?? it).join(' and ')}`;
  };
  return trace.split('\n').map(line => {
    if (line.trimStart().startsWith('#')) return line.replace(/\b(lines?|ports?) (\d+)\b(?: and (\d+)\b)?/gi, variedComment);
    const words = line.split(' ');
    (KINDS_OF_NUMBERS[`${words[0]} ${words.length}`] ?? '').split(' ').forEach((kind, i) => {
      if (kind) words[i + 1] = other[kind].get(words[i + 1]) ?? words[i + 1];
    });
    return words.join(' ');
  }).join('\n');
}
