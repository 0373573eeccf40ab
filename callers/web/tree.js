// The items of a block as a tree, folded and unfolded.

import { LINK, MAP } from './kinds.js';
import { FAULT, payloadOf } from './shape.js';
import { counted } from './text.js';
import { make, withAttributes } from './dom.js';
import { Rows } from './rows.js';

const ITEM_HEIGHT = 26;
const OPEN_AT_FIRST = 120; // rows
const LONG_TEXT = 300; // bytes
const DEEP = 16; // levels: deeper ones are told by their number

export class Tree {
  // `point` and `pick` are told of tokens, -1 for none; `follow` of a link's. `copyPath` copies that of
  // the picked one.
  constructor(host, { point, pick, follow, canFollow, copyPath }) {
    Object.assign(this, { host, point, pick, follow, canFollow, copyPath });
    this.rows = new Rows(host, ITEM_HEIGHT, (row) => this.draw(row));
    this.visible = [];
    this.picked = -1;
    this.pointed = -1;
    withAttributes(host, { role: 'tree', tabindex: 0, 'aria-label': 'Items of the block' });
    const rowOf = (event) => event.target.closest('[data-row]');
    host.addEventListener('mousemove', (event) => {
      const row = rowOf(event);
      this.point(row ? this.visible[Number(row.dataset.row)] : -1);
    });
    host.addEventListener('mouseleave', () => this.point(-1));
    host.addEventListener('click', (event) => this.click(event, rowOf(event)));
    host.addEventListener('dblclick', (event) => {
      const row = rowOf(event);
      if (row) this.toggle(this.visible[Number(row.dataset.row)]);
    });
    host.addEventListener('keydown', (event) => this.key(event));
    host.addEventListener('focus', () => {
      if (this.picked < 0 && this.visible.length) this.choose(0);
    });
  }

  show(items) {
    this.items = items;
    this.open = new Uint8Array(items.shape.count); // 1 where it is unfolded
    this.picked = -1;
    this.pointed = -1;
    this.openSome();
    this.lay();
    this.host.scrollTop = 0;
  }

  // The outer lists and maps, as long as there is room; and those around the place where reading
  // stopped.
  openSome() {
    const { shape } = this.items;
    let [level, rows] = [[0], 1];
    while (level.length) {
      const inner = [];
      for (const token of level) {
        if (!this.isFoldable(token)) continue;
        const held = this.items.taken(token);
        if (token && rows + held > OPEN_AT_FIRST) continue;
        rows += held;
        this.open[token] = 1;
        if (held <= OPEN_AT_FIRST) inner.push(...this.held(token));
      }
      level = inner;
    }
    const last = shape.count - 1;
    if (shape.kind[last] !== FAULT) return;
    for (let at = shape.parent[last]; at >= 0; at = shape.parent[at]) this.open[at] = 1;
  }

  isFoldable(token) {
    return this.items.isHolder(token) && this.items.shape.end[token] > token + 1;
  }

  // The values that a list or map holds.
  held(token) {
    const { shape } = this.items;
    const found = [];
    for (let i = token + 1; i < shape.end[token]; i = shape.isKey[i] ? i + 1 : shape.end[i]) {
      if (!shape.isKey[i] || i + 1 === shape.end[token]) found.push(i);
    }
    return found;
  }

  lay() {
    const { shape } = this.items;
    const visible = [];
    let i = 0;
    while (i < shape.count) {
      if (shape.isKey[i] && i + 1 < shape.count && shape.kind[i] !== FAULT) {
        i += 1;
        continue;
      }
      visible.push(i);
      i = this.open[i] ? i + 1 : shape.end[i];
    }
    this.visible = visible;
    this.rows.setCount(visible.length);
    this.tellActive();
  }

  rowOf(token) {
    let [low, high] = [0, this.visible.length - 1];
    while (low < high) {
      const middle = (low + high + 1) >> 1;
      if (this.visible[middle] <= token) low = middle;
      else high = middle - 1;
    }
    return low;
  }

  level(token) {
    const { parent } = this.items.shape;
    let level = 1;
    for (let at = parent[token]; at >= 0; at = parent[at]) level += 1;
    return level;
  }

  draw(row) {
    const { items } = this;
    const token = this.visible[row];
    const { shape } = items;
    const holder = shape.parent[token];
    const level = this.level(token);
    const element = make(`div.item.${items.kindClass(token)}`);
    withAttributes(element, {
      role: 'treeitem', id: `item-${token}`, 'data-row': row, 'aria-level': level,
      'aria-selected': token === this.picked, 'aria-label': items.told(token),
      'aria-expanded': this.isFoldable(token) ? this.open[token] === 1 : undefined,
      'aria-posinset': holder < 0 ? 1 : shape.order[token] + 1,
      'aria-setsize': holder < 0 ? 1 : items.taken(holder),
    });
    const pad = make('span.pad', level > DEEP ? String(level) : '');
    pad.setAttribute('aria-hidden', 'true');
    pad.style.setProperty('--level', Math.min(level, DEEP) - 1);
    const sign = this.open[token] ? '▾' : '▸';
    const twist = make('span.twist', this.isFoldable(token) ? sign : '');
    twist.setAttribute('aria-hidden', 'true');
    element.append(pad, twist, ...this.label(token), this.value(token), ...this.notes(token));
    element.classList.toggle('is-pointed', token === this.pointed);
    return element;
  }

  label(token) {
    const { items } = this;
    const key = items.keyOf(token);
    if (key >= 0) return [make('bdi.key', items.shortText(key)), make('span.colon', ': ')];
    const holder = items.shape.parent[token];
    if (holder < 0 || items.kind(holder) === MAP) return [];
    return [make('span.index', String(items.shape.order[token])), make('span.colon', ' ')];
  }

  value(token) {
    const { items } = this;
    const text = items.short(token);
    if (items.kind(token) !== LINK) return make('bdi.value', text);
    const element = make('bdi.value', text);
    if (this.canFollow(items.payload(token))) element.classList.add('is-open');
    return element;
  }

  notes(token) {
    const { items } = this;
    const name = items.kindName(token);
    if (items.isHolder(token)) {
      const taken = items.taken(token);
      const isShort = BigInt(taken) < items.shape.number[token];
      return isShort ? [make('span.note', `${taken} before the fault`)] : [];
    }
    const length = payloadOf(items.shape, token);
    const isTold = name === 'byte string' || (name === 'text' && length > LONG_TEXT);
    return isTold ? [make('span.note', counted(length, 'byte'))] : [];
  }

  click(event, row) {
    if (!row) return;
    const index = Number(row.dataset.row);
    const token = this.visible[index];
    if (event.target.closest('.twist')) this.toggle(token);
    this.choose(this.rowOf(token));
    if (event.target.closest('.value.is-open')) this.follow(this.items.payload(token));
  }

  choose(row) {
    const token = this.visible[row];
    this.pick(token);
  }

  // Marks a token as picked, and shows it.
  setPicked(token) {
    this.picked = token;
    if (token >= 0) {
      const { parent } = this.items.shape;
      let isFolded = false;
      for (let at = parent[token]; at >= 0; at = parent[at]) {
        if (!this.open[at]) {
          this.open[at] = 1;
          isFolded = true;
        }
      }
      if (isFolded) this.lay();
      this.rows.reveal(this.rowOf(token));
    }
    this.rows.redraw(true);
    this.tellActive();
  }

  setPointed(token) {
    if (token === this.pointed) return;
    this.pointed = token;
    for (const element of this.rows.window.children) {
      element.classList.toggle('is-pointed', this.visible[Number(element.dataset.row)] === token);
    }
  }

  tellActive() {
    const isThere = this.picked >= 0 && this.visible[this.rowOf(this.picked)] === this.picked;
    if (isThere) this.host.setAttribute('aria-activedescendant', `item-${this.picked}`);
    else this.host.removeAttribute('aria-activedescendant');
  }

  toggle(token) {
    if (!this.isFoldable(token)) return;
    this.open[token] = 1 - this.open[token];
    this.lay();
  }

  openAll() {
    const { shape } = this.items;
    for (let i = 0; i < shape.count; i += 1) if (this.isFoldable(i)) this.open[i] = 1;
    this.lay();
  }

  foldAll() {
    this.open.fill(0).fill(1, 0, 1);
    this.lay();
  }

  key(event) {
    if (event.ctrlKey || event.metaKey || event.altKey || !this.visible.length) return;
    const token = this.picked < 0 ? 0 : this.picked;
    const row = this.rowOf(token);
    const { parent } = this.items.shape;
    const last = this.visible.length - 1;
    const moves = {
      ArrowDown: row + 1, ArrowUp: row - 1, Home: 0, End: last,
      PageDown: row + this.rows.seen, PageUp: row - this.rows.seen,
    };
    if (event.key in moves) this.choose(Math.max(0, Math.min(last, moves[event.key])));
    else if (event.key === 'ArrowRight') {
      if (this.isFoldable(token) && !this.open[token]) this.toggle(token);
      else if (this.isFoldable(token)) this.choose(row + 1);
    } else if (event.key === 'ArrowLeft') {
      if (this.isFoldable(token) && this.open[token]) this.toggle(token);
      else if (parent[token] >= 0) this.choose(this.rowOf(parent[token]));
    } else if (event.key === 'Enter' || event.key === ' ') {
      const cid = this.items.payload(token);
      if (this.items.kind(token) === LINK && this.canFollow(cid)) this.follow(cid);
      else this.toggle(token);
    } else if (event.key === 'p') this.copyPath();
    else return;
    event.preventDefault();
  }
}
