// The sections of a CAR file: what is told of them, batch by batch, and the table of them.

import { NOT_VERIFIED, OTHER_BYTES, OTHER_CODEC } from './kinds.js';
import { cidKey, cidParts, cidText } from './cid.js';
import { grouping, sizeOf } from './text.js';
import { make, withAttributes } from './dom.js';
import { Rows } from './rows.js';
import { sectionOf } from './verdicts.js';

const SECTION_HEIGHT = 32;
const AT_ONCE = 5_000;

export const GROUPS = [
  ['all', 'All', () => true],
  ['ok', 'Blocks', (code) => code >= 0 && code < OTHER_CODEC],
  ['refused', 'Refused', (code) => code < 0 && code > OTHER_BYTES],
  ['bytes', 'Other bytes', (code) => code === OTHER_BYTES],
  ['unknown', 'Not verified', (code) => code === NOT_VERIFIED],
  ['codec', 'Other codec', (code) => code === OTHER_CODEC],
];

const groupOf = (code) => GROUPS.slice(1).find(([, , has]) => has(code))?.[0] ?? 'refused';

export class Sections {
  constructor() {
    this.count = 0;
    this.starts = [];
    this.blocks = [];
    this.ends = [];
    this.codes = [];
    this.cids = [];
    this.byName = new Map(); // of each CID the first section whose block is the one that is named
    this.counts = Object.fromEntries(GROUPS.map(([name]) => [name, 0]));
  }

  add({ places, codes, lengths, cids }) {
    const keys = cidKey(cids);
    let at = 0;
    for (let i = 0; i < codes.length; i += 1) {
      const cid = cids.subarray(at, at + lengths[i]);
      const name = keys.slice(at, at + lengths[i]);
      at += lengths[i];
      this.starts.push(places[3 * i]);
      this.blocks.push(places[3 * i + 1]);
      this.ends.push(places[3 * i + 2]);
      this.codes.push(codes[i]);
      this.cids.push(cid);
      const known = this.byName.get(name);
      if (known === undefined || (this.codes[known] <= OTHER_BYTES && codes[i] > OTHER_BYTES)) {
        this.byName.set(name, this.count);
      }
      this.counts.all += 1;
      this.counts[groupOf(codes[i])] += 1;
      this.count += 1;
    }
  }

  find(cid) {
    return this.byName.get(cidKey(cid));
  }

  size(i) {
    return this.ends[i] - this.blocks[i];
  }

  // The sections of a group whose CID has this in its text. It lets the page answer in between, and
  // is null if it is no longer wanted.
  async chosen(group, part, isWanted) {
    const [, , has] = GROUPS.find(([name]) => name === group);
    const found = [];
    for (let i = 0; i < this.count; i += 1) {
      if (has(this.codes[i]) && (!part || cidText(this.cids[i]).includes(part))) found.push(i);
      if (i % AT_ONCE < AT_ONCE - 1) continue;
      await new Promise((go) => { setTimeout(go); });
      if (!isWanted()) return null;
    }
    return found;
  }
}

const CID_END = 8;

// Its end is always shown, because those of one kind begin alike.
const cidCell = (text) => make('span.cid', make('span.cid-front', text.slice(0, -CID_END)),
  make('span.cid-end', text.slice(-CID_END)));

const COLUMNS = ['#', 'Verdict', 'CID', 'Size', 'Offset'];

export class Table {
  constructor(host, sections, { open }) {
    Object.assign(this, { host, sections, open, chosen: null, picked: 0 });
    const titles = COLUMNS.map((it) => withAttributes(make('span', it), { role: 'columnheader' }));
    const head = make('div.section.is-head', ...titles);
    this.head = withAttributes(head, { role: 'row', 'aria-rowindex': 1 });
    const box = make('div.sections-box');
    host.append(this.head, box);
    this.box = box;
    withAttributes(host, {
      role: 'grid', tabindex: 0, 'aria-label': 'Sections. Enter opens the block.',
    });
    box.setAttribute('role', 'rowgroup');
    this.rows = new Rows(box, SECTION_HEIGHT, (row) => this.draw(row));
    box.addEventListener('click', (event) => {
      const row = event.target.closest('[data-row]');
      if (!row) return;
      this.pick(Number(row.dataset.row));
      this.open(this.at(this.picked));
    });
    host.addEventListener('keydown', (event) => this.key(event));
  }

  get length() {
    return this.chosen ? this.chosen.length : this.sections.count;
  }

  at(row) {
    return this.chosen ? this.chosen[row] : row;
  }

  // None stands for all.
  choose(chosen) {
    this.chosen = chosen;
    this.picked = 0;
    this.box.scrollTop = 0;
    this.lay();
  }

  lay() {
    this.host.setAttribute('aria-rowcount', this.length + 1);
    this.rows.setCount(this.length);
    const { offsetWidth, clientWidth } = this.box; // what a bar to scroll by takes
    this.head.style.setProperty('--gutter', `${offsetWidth - clientWidth}px`);
    this.tellActive();
  }

  draw(row) {
    const i = this.at(row);
    const { sections } = this;
    const code = sections.codes[i];
    const { word } = sectionOf(code);
    const told = code === OTHER_CODEC ? cidParts(sections.cids[i]).codec : word;
    const verdict = make(`span.verdict.is-${groupOf(code)}`, make('span.dot'), told);
    const cells = [
      make('span.row-number', grouping(i + 1)), verdict, cidCell(cidText(sections.cids[i])),
      make('span.size', sizeOf(sections.size(i))), make('span.place', grouping(sections.starts[i])),
    ];
    for (const it of cells) it.setAttribute('role', 'gridcell');
    const element = make('div.section', ...cells);
    element.classList.toggle('is-picked', row === this.picked);
    return withAttributes(element, {
      role: 'row', id: `section-${row}`, 'data-row': row, 'aria-rowindex': row + 2,
      'aria-selected': row === this.picked,
    });
  }

  pick(row) {
    this.picked = row;
    this.rows.reveal(row);
    this.rows.redraw(true);
    this.tellActive();
  }

  tellActive() {
    if (this.length) this.host.setAttribute('aria-activedescendant', `section-${this.picked}`);
    else this.host.removeAttribute('aria-activedescendant');
  }

  key(event) {
    if (event.ctrlKey || event.metaKey || event.altKey || !this.length) return;
    const last = this.length - 1;
    const moves = {
      ArrowDown: this.picked + 1, ArrowUp: this.picked - 1, Home: 0, End: last,
      PageDown: this.picked + this.rows.seen, PageUp: this.picked - this.rows.seen,
    };
    if (event.key in moves) this.pick(Math.max(0, Math.min(last, moves[event.key])));
    else if (event.key === 'Enter' || event.key === ' ') this.open(this.at(this.picked));
    else return;
    event.preventDefault();
  }
}
