// A CAR file: its roots, its sections, and what is missing.

import { cidKey, cidText } from './cid.js';
import { button, growing, make, withAttributes } from './dom.js';
import { counted, grouping, sizeOf } from './text.js';
import { GROUPS, Sections, Table } from './sections.js';
import { faultOf } from './verdicts.js';

const ALL_WELL = 'Each block is the one that its CID names, and each link and root leads to one.';
const MISSING_AT_ONCE = 100;
const BETWEEN_LOOKS = 120; // milliseconds between two looks at what was read
const ROOTS_AT_ONCE = 20;

let walks = 0;

export class CarView {
  constructor(asker, file, front, { open }) {
    Object.assign(this, { asker, file, front, open });
    this.sections = new Sections();
    this.group = 'all';
    this.filtered = 0;
    walks += 1;
    this.number = walks;
    const parts = [this.summary(), this.rootList(), this.filters(), this.table()];
    this.element = make('article.car', ...parts, this.missingList());
    this.readTo = Number(front.steps[0]);
    this.tell(this.readTo);
    this.walk();
  }

  canFollow(cid) {
    return this.sections.find(cid) !== undefined;
  }

  // The verdict on the file as a whole.

  summary() {
    this.banner = make('div.banner.is-note');
    this.title = make('span');
    this.said = make('p');
    this.bar = withAttributes(make('progress'), { max: 1, 'aria-label': 'Read of the file' });
    this.stop = button('Stop', () => this.end(), '.quiet');
    this.progress = make('div.progress', this.bar, this.stop);
    this.mark = withAttributes(make('span.mark', '…'), { 'aria-hidden': true });
    const title = withAttributes(make('h2', this.mark, this.title), { 'aria-live': 'polite' });
    this.banner.append(title, this.said, this.progress);
    return this.banner;
  }

  tell(at) {
    const { counts } = this.sections;
    this.bar.value = this.file.size ? at / this.file.size : 1;
    if (!this.done) {
      this.title.textContent = 'Reading the CAR file';
      const read = `${sizeOf(at)} of ${sizeOf(this.file.size)}`;
      this.said.textContent = `${counted(counts.all, 'section')}, ${read}`;
    }
    for (const [name, , , chip] of this.chips) {
      chip.lastChild.textContent = grouping(counts[name]);
      chip.hidden = name !== 'all' && !counts[name];
    }
  }

  conclude() {
    const { fault, missing, links } = this.done;
    const { counts } = this.sections;
    const wrong = counts.refused + counts.bytes + counts.unknown;
    const isWell = !fault && !wrong && !missing.length;
    this.banner.classList.replace('is-note', isWell ? 'is-good' : 'is-bad');
    this.mark.textContent = isWell ? '✓' : '✕';
    this.progress.remove();
    const size = `${counted(counts.all, 'section')} in ${sizeOf(this.file.size)}`;
    const all = `${size}, with ${counted(links, 'link')}.`;
    if (isWell) {
      this.title.textContent = 'A CAR file, and all is well';
      this.said.textContent = `${all} ${ALL_WELL}`;
      return;
    }
    const parts = [];
    if (counts.refused) parts.push(`${grouping(counts.refused)} refused`);
    if (counts.bytes) parts.push(`${grouping(counts.bytes)} with other bytes than their CID names`);
    if (counts.unknown) parts.push(`${grouping(counts.unknown)} not verified`);
    if (missing.length) parts.push(`${counted(missing.length, 'CID')} missing`);
    this.title.textContent = `A CAR file, and ${fault ? 'it breaks off' : 'not all is well'}`;
    this.said.textContent = `${all} ${parts.length ? `${parts.join(', ')}.` : ''}`;
    if (fault) {
      const { name, asks } = faultOf(fault.code);
      const where = ` At byte ${grouping(fault.at)}, where a section should begin.`;
      const text = `${where} ${asks} What is missing is not known.`;
      this.banner.append(make('p', make('code.name', name), text));
    }
  }

  rootList() {
    const { roots } = this.front;
    const list = make('ul.roots');
    if (!roots.length) list.append(make('li.hint', 'none'));
    const title = make('h3', roots.length === 1 ? 'Root' : 'Roots');
    return make('section', title, growing(list, roots, ROOTS_AT_ONCE, (it) => this.root(it)));
  }

  root(cid) {
    const item = make('li', button(cidText(cid), () => this.open(cid), '.cid'));
    if (this.lost?.has(cidKey(cid))) item.append(make('span.is-bad', 'missing'));
    return item;
  }

  // Which sections are shown.

  filters() {
    this.chips = GROUPS.map(([name, title, has]) => {
      const chip = button('', () => {
        this.group = name;
        this.filter();
      }, `.chip.is-${name}`);
      chip.append(make('span', title), ' ', make('b'));
      chip.setAttribute('aria-pressed', name === 'all');
      return [name, title, has, chip];
    });
    this.search = withAttributes(make('input'), {
      type: 'search', placeholder: 'Part of a CID', spellcheck: false,
      'aria-label': 'Show sections whose CID has this in it',
    });
    this.search.addEventListener('input', () => {
      clearTimeout(this.later);
      this.later = setTimeout(() => this.filter(), 200);
    });
    this.shown = withAttributes(make('span.hint'), { role: 'status' });
    return make('div.filters', ...this.chips.map((it) => it[3]), this.shown, this.search);
  }

  async filter() {
    for (const [name, , , chip] of this.chips) {
      chip.setAttribute('aria-pressed', name === this.group);
    }
    this.filtered += 1;
    const mine = this.filtered;
    const part = this.search.value.trim();
    const isAll = this.group === 'all' && !part;
    const isWanted = () => mine === this.filtered;
    const chosen = isAll ? null : await this.sections.chosen(this.group, part, isWanted);
    if (!isWanted()) return;
    this.grid.choose(chosen);
    this.none.hidden = this.grid.length > 0;
    this.shown.textContent = isAll ? '' : `${counted(this.grid.length, 'section')} shown`;
  }

  table() {
    const host = make('div.sections');
    const { sections } = this;
    this.grid = new Table(host, sections, { open: (i) => this.open(sections.cids[i], i) });
    this.none = make('p.hint', 'No section is like this.');
    this.none.hidden = true;
    return make('section', host, this.none);
  }

  missingList() {
    this.missing = make('section.missing');
    this.missing.hidden = true;
    return this.missing;
  }

  showMissing() {
    const { missing } = this.done;
    this.missing.hidden = !missing.length;
    if (!missing.length) return;
    this.lost = new Set(missing.map(cidKey));
    this.element.querySelectorAll('.roots li').forEach((it, i) => {
      const root = this.front.roots[i];
      if (root && this.lost.has(cidKey(root))) it.append(make('span.is-bad', 'missing'));
    });
    const title = make('h3', `Missing ${grouping(missing.length)}`);
    const hint = make('p.hint', 'Roots and links that lead to no verified block of this file.');
    const made = (cid) => make('li', make('code.cid', cidText(cid)));
    this.missing.append(title, hint, growing(make('ul.links'), missing, MISSING_AT_ONCE, made));
  }

  // Reading.

  async walk() {
    const told = ({ batch, at }) => {
      if (this.isEnded) return; // what comes after Stop is not shown
      this.sections.add(batch);
      this.readTo = at;
      this.planned ??= setTimeout(() => this.refresh(), BETWEEN_LOOKS);
    };
    try {
      const { file, front, number } = this;
      const done = await this.asker.ask('walk', { file, front, walk: number }, told);
      if (this.isEnded) return;
      clearTimeout(this.planned);
      this.done = done;
      this.tell(this.readTo);
      this.filter();
      this.conclude();
      this.showMissing();
      this.element.dataset.done = 'yes';
    } catch (error) {
      this.title.textContent = 'The file could not be read';
      this.said.textContent = error.message;
      this.progress.remove();
    }
  }

  // What was read so far is shown.
  refresh() {
    clearTimeout(this.planned);
    this.planned = null;
    this.tell(this.readTo);
    if (this.group === 'all' && !this.search.value) this.grid.lay();
  }

  // What is not shown forgets where it was scrolled to.
  leave() {
    this.scrolled = this.grid.box.scrollTop;
  }

  afterShown() {
    this.grid.box.scrollTop = this.scrolled ?? 0;
  }

  end() {
    if (this.done || this.isEnded) return;
    this.refresh();
    this.isEnded = true;
    this.asker.ask('stop', { walk: this.number });
    this.title.textContent = 'Stopped';
    this.progress.remove();
  }
}
