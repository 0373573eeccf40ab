// DAG-JSON to a block: what is typed is spelled and judged at once.

import { cidText } from './cid.js';
import { counted, toHex } from './text.js';
import { button, copier, download, make, withAttributes } from './dom.js';
import { jsonOf } from './jsonview.js';
import { KINDS, refusalOf } from './verdicts.js';

const MOST_EDITED = 200_000; // characters
const MOST_HEX = 512; // bytes
const PAUSE = 120; // milliseconds without a key

const HOW = 'Type DAG-JSON: keys are put in order, and the library spells and judges it.';
const TOO_LONG_TO_EDIT = 'This block is too long to be edited: type another one.';
const RESERVED_TO_EDIT = 'This block has a map with the key "/", which DAG-JSON keeps for links'
  + ' and byte strings: it cannot be edited. Type another one.';

// The block of DAG-JSON, its name and its kind.
export const spelled = async (asker, text) => {
  const told = await asker.ask('spell', { text });
  if (told.code < 0) {
    const { name, asks } = refusalOf(told.code);
    throw new Error(`No block: ${name}. ${asks}`);
  }
  return told;
};

export class Editor {
  // `open` is told of the bytes of a block that is to be looked at.
  constructor(asker, block, { open }) {
    Object.assign(this, { asker, open, made: null, asked: 0 });
    this.area = withAttributes(make('textarea.json'), {
      spellcheck: false, rows: 14,
      'aria-label': 'DAG-JSON of the block', 'aria-describedby': 'spelled',
    });
    this.said = withAttributes(make('p'), { role: 'status', id: 'spelled' });
    this.facts = make('div.spelled');
    const use = (title, act) => button(title, () => this.made && act(this.made), '.quiet');
    this.tools = [
      use('Download', ({ bytes, name }) => download(bytes, `${cidText(name)}.dagcbor`)),
      use('Open the block', ({ bytes }) => this.open(bytes)),
    ];
    this.tools[0].setAttribute('aria-label', 'Download the block');
    const bar = make('div.tools', make('h3', 'DAG-JSON to a block'), ...this.tools);
    const made = make('div.made', this.said, this.facts);
    this.element = make('section.pane.editor', bar, this.area, made);
    this.area.addEventListener('input', () => {
      clearTimeout(this.later);
      this.later = setTimeout(() => this.spell(), PAUSE);
    });
    this.show(null);
    jsonOf(asker, block.bytes, true, MOST_EDITED).then(({ text, isWhole, isReserved }) => {
      if (isWhole && !isReserved) {
        this.area.value = text;
        this.spell();
      } else this.area.placeholder = isReserved ? RESERVED_TO_EDIT : TOO_LONG_TO_EDIT;
    });
  }

  // Of two that are asked for, the later is shown.
  async spell() {
    this.asked += 1;
    const mine = this.asked;
    try {
      const made = await spelled(this.asker, this.area.value);
      if (mine === this.asked) this.show(made);
    } catch (error) {
      if (mine === this.asked) this.show(null, this.area.value.trim() ? error : null);
    }
  }

  show(made, error = null) {
    this.made = made;
    this.said.className = made ? 'is-good' : error ? 'is-bad' : 'hint';
    this.area.setAttribute('aria-invalid', Boolean(error));
    for (const it of this.tools) it.disabled = !made;
    if (!made) {
      this.said.textContent = error?.message ?? HOW;
      this.facts.replaceChildren();
      return;
    }
    const { bytes, name, code } = made;
    this.said.textContent = `A block: ${KINDS[code]}, ${counted(bytes.length, 'byte')}`;
    const cid = cidText(name);
    const hex = toHex(bytes.subarray(0, MOST_HEX)).replace(/..(?=.)/g, '$& ');
    this.facts.replaceChildren(
      make('p.link-line', make('code.cid', cid), copier('Copy the CID', () => cid)),
      make('pre.whole', bytes.length > MOST_HEX ? `${hex} …` : hex),
      copier('Copy the bytes in hexadecimal', () => toHex(bytes), 'Copy hex'));
  }
}
