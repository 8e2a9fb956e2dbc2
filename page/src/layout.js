// The names of the device's lines, from the layout that docs/MACHINE.md and docs/TREE.md list.

export const CHIP = 'chip';
export const DATA = 'data';
export const TAGS = 'tag lines';
export const COUNTERS = 'counter blocks';
export const NODES = 'tree nodes';
export const SHADOWS = 'shadow';

export const PARTS = [CHIP, DATA, TAGS, COUNTERS, NODES, SHADOWS];
export const PARTS_OF_TREE = [CHIP, DATA, TAGS, NODES, SHADOWS];

const upTo = (first, count) => Array.from({length: count}, (_, i) => first + i);

// The device of the first controller.
export class Layout {
  constructor({levels, sets, ways, shadow}) {
    this.levels = levels;
    this.pages = 4 ** levels;
    this.hasTables = shadow !== 'off';
    this.dataLines = 64 * this.pages;
    this.firstTag = this.dataLines;
    this.firstMeta = 80 * this.pages;
    this.nodes = (this.pages - 1) / 3;
    this.slots = this.hasTables ? sets * ways : 0;
    this.firstShadow = this.firstMeta + this.nodes + this.pages;
    this.firstNodeShadow = this.firstShadow + Math.ceil(this.slots / 16);
    this.size = this.firstNodeShadow + Math.ceil(levels * this.slots / 16);
    this.parts = this.hasTables ? PARTS : PARTS.filter(part => part !== SHADOWS);
  }

  // The lines of each part, as [part, first line, count].
  get regions() {
    const blocks = this.firstMeta + this.nodes;
    return [[DATA, 0, this.dataLines], [TAGS, this.firstTag, this.dataLines / 4], [NODES, this.firstMeta, this.nodes],
      [COUNTERS, blocks, this.pages], ...(this.hasTables ? [[SHADOWS, this.firstShadow, this.size - this.firstShadow]] : [])];
  }

  partOf(line) {
    return this.regions.find(([, first, count]) => line < first + count)[0];
  }

  nameOf(line) {
    const part = this.partOf(line);
    if (part === DATA) return `data line ${line}`;
    if (part === TAGS) return `tag line of ${4 * (line - this.firstTag)} to ${4 * (line - this.firstTag) + 3}`;
    if (part === NODES) return line === this.firstMeta ? 'node 0, the top' : `node ${line - this.firstMeta}`;
    if (part === COUNTERS) return `counter block of page ${line - this.firstMeta - this.nodes}`;
    if (line < this.firstNodeShadow) return `line ${line - this.firstShadow} of the shadow table of counter blocks`;
    return `line ${line - this.firstNodeShadow} of the shadow table of tree nodes`;
  }

  // The data lines that share a counter block.
  get linesOfPage() {
    return 64;
  }

  // The positions of a page's path, the top first.
  pathOf(page) {
    const path = [this.nodes + page];
    while (path[0]) path.unshift((path[0] - 1 - (path[0] - 1) % 4) / 4);
    return path;
  }

  // What the bytes of a line mean, as rows of [what, value].
  readLine(line, bytes) {
    const part = this.partOf(line);
    const hex = (from, count) => [...bytes.slice(from, from + count)].map(it => it.toString(16).padStart(2, '0')).join('');
    if (part === TAGS) return upTo(0, 4).map(i => [`tag of line ${4 * (line - this.firstTag) + i}`, hex(16 * i, 16)]);
    if (part === NODES) {
      const position = line - this.firstMeta;
      return upTo(0, 4).map(i => [`digest of ${this.nameOf(this.firstMeta + 4 * position + 1 + i)}`, hex(16 * i, 16)]);
    }
    if (part === COUNTERS) {
      const minors = minorsOf(bytes);
      const first = 64 * (line - this.firstMeta - this.nodes);
      const used = minors.map((minor, i) => [first + i, minor]).filter(([, minor]) => minor);
      return [['major', String(BigInt('0x' + hex(0, 8)))],
        ['minors', used.length ? used.map(([at, minor]) => `line ${at}: ${minor}`).join(', ') : 'all 0']];
    }
    if (part === SHADOWS) {
      const named = upTo(0, 16).map(i => Number('0x' + hex(4 * i, 4))).map((it, i) => [i, it]).filter(([, it]) => it);
      if (!named.length) return [['names', 'no line']];
      return named.map(([i, it]) => [`entry ${i} names`,
        it <= this.nodes + this.pages ? this.nameOf(this.firstMeta + it - 1) : `position ${it - 1}`]);
    }
    return [['cipher of', `data line ${line}`]];
  }

  // The positions that the shadow lines of a device name.
  namedBy(lines) {
    const named = new Set();
    for (let line = this.firstShadow; line < this.size; line++) {
      const bytes = bytesOf(lines[line]);
      for (let at = 0; at < 64; at += 4) {
        const entry = ((bytes[at] * 256 + bytes[at + 1]) * 256 + bytes[at + 2]) * 256 + bytes[at + 3];
        if (entry && entry <= this.nodes + this.pages) named.add(entry - 1);
      }
    }
    return named;
  }
}

// The device of the counter tree: see "The device" in docs/TREE.md.
export class TreeLayout {
  constructor({levels, sets}) {
    this.levels = levels;
    this.nodes = (4 ** (levels + 1) - 1) / 3;
    this.dataLines = 4 ** (levels + 1);
    this.pages = 4 ** levels;
    this.firstTag = this.dataLines;
    this.firstMeta = 2 * this.dataLines;
    this.firstShadow = this.firstMeta + this.nodes;
    this.size = this.firstShadow + 1 + levels * sets;
    this.parts = PARTS_OF_TREE;
  }

  get regions() {
    return [[DATA, 0, this.dataLines], [TAGS, this.firstTag, this.dataLines], [NODES, this.firstMeta, this.nodes],
      [SHADOWS, this.firstShadow, this.size - this.firstShadow]];
  }

  partOf(line) {
    return this.regions.find(([, first, count]) => line < first + count)[0];
  }

  nameOf(line) {
    const part = this.partOf(line);
    if (part === DATA) return `data line ${line}`;
    if (part === TAGS) return `tag of line ${line - this.firstTag}`;
    if (part === NODES) return line === this.firstMeta ? 'node 0, the top' : `node ${line - this.firstMeta}`;
    return `slot ${line - this.firstShadow}`;
  }

  // The data lines that share a path: four for each node of the lowest level.
  get linesOfPage() {
    return 4;
  }

  // The nodes above the lines of a page, the top first.
  pathOf(page) {
    const path = [(4 ** this.levels - 1) / 3 + page];
    while (path[0]) path.unshift((path[0] - 1 - (path[0] - 1) % 4) / 4);
    return path;
  }
}

export function bytesOf(hex) {
  return Uint8Array.from({length: hex.length / 2}, (_, i) => parseInt(hex.slice(2 * i, 2 * i + 2), 16));
}

// The 64 minors of 7 bits each that follow the major in a counter block, the highest bit first.
export function minorsOf(bytes) {
  const bit = at => bytes[8 + (at >> 3)] >> (7 - (at & 7)) & 1;
  return upTo(0, 64).map(i => upTo(7 * i, 7).reduce((minor, at) => 2 * minor + bit(at), 0));
}
