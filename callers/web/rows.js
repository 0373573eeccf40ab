// Rows of one height in a box that scrolls. Only those that are seen exist.

import { make } from './dom.js';

const TALLEST = 8_000_000; // pixels: browsers have a limit. Beyond it rows are scrolled faster
const SPARE = 8;

export class Rows {
  // `draw` makes the element of a row.
  constructor(host, height, draw) {
    this.host = host;
    this.height = height;
    this.draw = draw;
    this.count = 0;
    this.space = make('div.rows-space');
    this.window = make('div.rows-window');
    this.space.append(this.window);
    host.append(this.space);
    for (const it of [this.space, this.window]) it.setAttribute('role', 'presentation');
    host.addEventListener('scroll', () => this.redraw(), { passive: true });
    new ResizeObserver(() => this.redraw(true)).observe(host);
  }

  setCount(count) {
    this.count = count;
    this.space.style.height = `${Math.min(count * this.height, TALLEST)}px`;
    this.redraw(true);
  }

  // How many pixels of rows one of scrolling stands for.
  get factor() {
    const seen = this.host.clientHeight;
    const whole = this.count * this.height;
    return whole <= TALLEST ? 1 : (whole - seen) / (TALLEST - seen);
  }

  redraw(isForced = false) {
    const { scrollTop, clientHeight } = this.host;
    const top = scrollTop * this.factor;
    const from = Math.max(0, Math.floor(top / this.height) - SPARE);
    const to = Math.min(this.count, Math.ceil((top + clientHeight) / this.height) + SPARE);
    if (!isForced && this.factor === 1 && from === this.from && to === this.to) return;
    this.from = from;
    this.to = to;
    this.window.style.transform = `translateY(${from * this.height - top + scrollTop}px)`;
    const rows = [];
    for (let i = from; i < to; i += 1) rows.push(this.draw(i));
    this.window.replaceChildren(...rows);
  }

  // Scrolls until the row is seen.
  reveal(row) {
    const { clientHeight } = this.host;
    const top = this.host.scrollTop * this.factor;
    const wanted = row * this.height;
    if (wanted >= top && wanted + this.height <= top + clientHeight) return;
    const target = wanted < top && top - wanted < clientHeight ? wanted
      : wanted > top && wanted - top < 2 * clientHeight ? wanted + this.height - clientHeight
        : wanted - clientHeight / 3;
    this.host.scrollTop = Math.max(0, target / this.factor);
    this.redraw();
  }

  get seen() {
    return Math.max(1, Math.floor(this.host.clientHeight / this.height) - 1);
  }
}
