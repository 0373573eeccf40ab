// The bytes of a block in hexadecimal and as text, each in the colour of the item that it is of.

import { KIND_CLASS } from './items.js';
import { tokenAt } from './shape.js';
import { hexByte } from './text.js';
import { make, withAttributes } from './dom.js';
import { Rows } from './rows.js';

const BYTES_HEIGHT = 26;

export class Bytes {
  // `point` and `pick` are told of places, -1 for none.
  constructor(host, { point, pick }) {
    Object.assign(this, { host, point, pick });
    this.columns = 16;
    this.rows = new Rows(host, BYTES_HEIGHT, (row) => this.draw(row));
    this.cursor = -1;
    withAttributes(host, {
      role: 'listbox', tabindex: 0,
      'aria-label': 'Bytes of the block. Arrow keys move from byte to byte.',
    });
    const placeOf = (event) => {
      const cell = event.target.closest('[data-at]');
      return cell ? Number(cell.dataset.at) : -1;
    };
    host.addEventListener('mousemove', (event) => this.point(placeOf(event)));
    host.addEventListener('mouseleave', () => this.point(-1));
    host.addEventListener('click', (event) => {
      const place = placeOf(event);
      if (place >= 0) this.moveTo(place);
    });
    host.addEventListener('keydown', (event) => this.key(event));
    new ResizeObserver(() => this.fit()).observe(host);
  }

  // `fault` has the place of a refusal, and where the refused item begins.
  show(bytes, shape, fault) {
    Object.assign(this, { bytes, shape, fault, cursor: -1, marks: {} });
    this.columns = 0;
    this.fit();
    this.host.scrollTop = 0;
    if (fault) this.rows.reveal(Math.floor(fault.place / this.columns));
  }

  fit() {
    if (!this.bytes) return;
    const style = getComputedStyle(this.host);
    const character = parseFloat(style.fontSize) * 0.62;
    const columns = this.host.clientWidth >= 74 * character ? 16 : 8;
    if (columns === this.columns) return;
    this.columns = columns;
    const ends = this.fault && this.fault.place === this.bytes.length ? 1 : 0;
    this.rows.setCount(Math.ceil((this.bytes.length + ends) / columns));
  }

  draw(row) {
    const from = row * this.columns;
    const to = Math.min(from + this.columns, this.bytes.length);
    const hex = make('span.hex');
    const text = make('span.ascii');
    text.setAttribute('aria-hidden', 'true');
    let token = this.shape ? tokenAt(this.shape, from) : -1;
    for (let at = from; at < to; at += 1) {
      while (token >= 0 && at >= this.shape.start[token + 1]) {
        token = token + 1 < this.shape.count ? token + 1 : -1;
      }
      hex.append(this.cell(at, token, hexByte(this.bytes[at]), true));
      text.append(this.cell(at, token, printable(this.bytes[at]), false));
    }
    const isEnd = to === this.bytes.length && to < from + this.columns;
    if (this.fault?.place === to && isEnd) {
      const end = make('span.byte.is-fault.is-end', 'end');
      hex.append(withAttributes(end, { 'aria-label': 'the end' }));
    }
    const offset = make('span.offset', from.toString(16).padStart(4, '0'));
    const element = make('div.bytes-row', offset, hex, text);
    element.setAttribute('role', 'presentation');
    return element;
  }

  cell(at, token, text, isHex) {
    const element = make('span.byte', text);
    element.dataset.at = at;
    if (token >= 0) {
      const { kind, isKey, place } = this.shape;
      element.classList.add(isKey[token] ? 'k-key' : KIND_CLASS[kind[token]]);
      if (at < place[token]) element.classList.add('is-head');
    }
    if (isHex) {
      withAttributes(element, {
        id: `byte-${at}`, role: 'option', 'aria-selected': at === this.cursor,
        'aria-label': `${text}, byte ${at}`,
      });
    }
    this.dress(element, at);
    return element;
  }

  dress(element, at) {
    const { own, around } = this.marks;
    const { place = -1, start = -1 } = this.fault ?? {};
    const isIn = (range) => Boolean(range) && at >= range[0] && at < range[1];
    const { classList } = element;
    classList.toggle('is-own', isIn(own));
    classList.toggle('is-around', isIn(around) && !isIn(own));
    classList.toggle('is-cursor', at === this.cursor);
    classList.toggle('is-fault', at === place);
    classList.toggle('is-faulty', at >= start && at < place);
  }

  // Marks a token's own bytes, and those of all that it holds.
  mark(own, around, isShown) {
    this.marks = { own, around };
    if (isShown && own) this.rows.reveal(Math.floor(own[0] / this.columns));
    for (const element of this.rows.window.querySelectorAll('[data-at]')) {
      this.dress(element, Number(element.dataset.at));
    }
  }

  moveTo(place) {
    this.cursor = place;
    this.host.setAttribute('aria-activedescendant', `byte-${place}`);
    this.rows.reveal(Math.floor(place / this.columns));
    this.pick(place);
  }

  key(event) {
    if (event.ctrlKey || event.metaKey || event.altKey || !this.bytes?.length) return;
    const at = this.cursor < 0 ? -1 : this.cursor;
    const last = this.bytes.length - 1;
    const page = this.rows.seen * this.columns;
    const moves = {
      ArrowRight: at + 1, ArrowLeft: at - 1,
      ArrowDown: at + this.columns, ArrowUp: at - this.columns,
      Home: 0, End: last, PageDown: at + page, PageUp: at - page,
    };
    if (!(event.key in moves)) return;
    event.preventDefault();
    this.moveTo(Math.max(0, Math.min(last, moves[event.key])));
  }
}

const printable = (byte) => (byte > 0x20 && byte < 0x7f ? String.fromCharCode(byte) : '·');
