// A block's tree and bytes beside each other, each of which marks the other, and the picked item.

import { BYTES, INTEGER, LINK, NEGATIVE, TEXT } from './kinds.js';
import { FAULT, payloadOf, tokenAt } from './shape.js';
import { counted, grouping, toBase64, toHex } from './text.js';
import { button, copier, download, make, withAttributes } from './dom.js';
import { Bytes } from './bytes.js';
import { linkLine } from './links.js';
import { itemAt, pathTo } from './paths.js';
import { Tree } from './tree.js';
import { refusalOf } from './verdicts.js';

const MOST_SHOWN = 4_000; // characters of a text or byte string that is picked
const MOST_COPIED = 4 << 20; // bytes, in hexadecimal
const HOW_TO_POINT = 'Point at an item or a byte to see the one in the other; pick it to see it whole.'
  + ' Arrow keys move, and P copies its path.';

export class Explorer {
  // `block` has the bytes, and its items if it has a tree; `why` says why it has none.
  constructor(block, { why, fault, name, follow, canFollow }) {
    Object.assign(this, { block, fault, follow, canFollow });
    this.shape = block.items?.shape ?? null;
    this.picked = fault && this.shape ? this.shape.count - 1 : -1;
    const bytes = this.bytesPane(name);
    this.element = this.shape
      ? make('div.panes', this.treePane(), bytes, this.detailsPane())
      : make('div', make('p.hint', why), bytes);
  }

  treePane() {
    const host = make('div.tree');
    this.tree = new Tree(host, {
      point: (token) => this.point(token),
      pick: (token) => this.pick(token, 'tree'),
      follow: this.follow,
      canFollow: this.canFollow,
      copyPath: () => this.whole.parentElement.querySelector('.copy-path')?.click(),
    });
    const title = make('h3', this.fault ? 'Tree, to the fault' : 'Tree');
    const unfold = button('Unfold all', () => this.tree.openAll(), '.quiet');
    const fold = button('Fold all', () => this.tree.foldAll(), '.quiet');
    const tools = make('div.tools', title, this.fault ? null : this.pathField(), unfold, fold);
    return make('section.pane', tools, host);
  }

  // A field that takes a path.
  pathField() {
    const field = withAttributes(make('input.path-field'), {
      type: 'text', 'aria-label': 'Go to a path', placeholder: 'a/0/b', spellcheck: false, autocomplete: 'off',
      autocapitalize: 'off',
    });
    field.addEventListener('keydown', (event) => {
      if (event.key === 'Enter') this.goTo(field.value);
    });
    return field;
  }

  goTo(path) {
    const { token, left, goesOn } = itemAt(this.block, path);
    this.pick(token, 'tree');
    if (!left) return;
    const told = goesOn ? 'It goes on in the block of this link: ' : 'Nothing is there at ';
    this.what.prepend(make('p.left', told, make('bdi.path', left)));
  }

  bytesPane(name) {
    const { bytes } = this.block;
    const host = make('div.bytes');
    this.bytesView = new Bytes(host, {
      point: (place) => this.point(place < 0 || !this.shape ? -1 : tokenAt(this.shape, place)),
      pick: (place) => {
        if (this.shape) this.pick(tokenAt(this.shape, place), 'bytes');
      },
    });
    const copy = copier('Copy the bytes in hexadecimal', () => toHex(bytes), 'Copy hex');
    const save = button('Download', () => download(bytes, name), '.quiet');
    save.setAttribute('aria-label', 'Download the bytes');
    const tools = make('div.tools', make('h3', 'Bytes'), bytes.length > MOST_COPIED ? null : copy, save);
    return make('section.pane', tools, host);
  }

  detailsPane() {
    // What it is, is read out; the whole of it may be long.
    this.what = withAttributes(make('div', make('p.hint', HOW_TO_POINT)), { 'aria-live': 'polite' });
    this.whole = make('div');
    const details = make('div.details', this.what, this.whole);
    return withAttributes(details, { role: 'region', 'aria-label': 'The picked item' });
  }

  // The page shows it: now sizes are known.
  afterShown() {
    if (!this.isShown) {
      this.isShown = true;
      this.bytesView.show(this.block.bytes, this.shape, this.fault);
      this.tree?.show(this.block.items);
    }
    if (this.tree && this.picked >= 0) this.pick(this.picked, 'tree');
  }

  // The bytes of a token, with its key, and of all that it holds.
  ranges(token) {
    const { start, end } = this.shape;
    const key = this.block.items.keyOf(token);
    const first = key >= 0 ? key : token;
    return { own: [start[first], start[token + 1]], around: [start[first], start[end[token]]] };
  }

  point(token) {
    if (token === this.pointed) return;
    this.pointed = token;
    this.tree?.setPointed(token < 0 ? -1 : this.block.items.valueOf(token));
    const shown = token < 0 ? this.picked : token;
    if (shown < 0) this.bytesView.mark(null, null);
    else this.bytesView.mark(...Object.values(this.ranges(shown)));
  }

  pick(token, by) {
    if (token < 0) return;
    this.picked = token;
    this.tree.setPicked(this.block.items.valueOf(token));
    const { own, around } = this.ranges(token);
    this.bytesView.mark(own, around, by === 'tree');
    this.tell(token);
  }

  tell(token) {
    const { items } = this.block;
    const kind = this.shape.kind[token];
    const title = make('h3', items.kindName(token), ' ', make('bdi.path', items.path(token)));
    if (kind === FAULT) {
      const { name, asks } = refusalOf(this.fault.code);
      this.what.replaceChildren(title, make('p', make('code.name', name), ' ', asks));
      this.whole.replaceChildren();
    } else {
      this.what.replaceChildren(title, this.spread(token), this.pathLine(token));
      this.whole.replaceChildren(...this.value(token, kind));
    }
  }

  // Its path, for whoever asks for it in another place.
  pathLine(token) {
    const { items } = this.block;
    const path = pathTo(items, items.valueOf(token));
    if (path === null) return make('p.hint', 'No path leads here: a key on the way is empty or has a slash.');
    const copy = copier('Copy the path', () => path, 'Copy path');
    copy.classList.add('copy-path');
    return make('p.hint', 'Path ', make('bdi.path', path || '(empty)'), ' ', copy);
  }

  // Its place, and what it is made of.
  spread(token) {
    const { start, end, place } = this.shape;
    const { items, bytes } = this.block;
    const from = start[token];
    const head = toHex(bytes.subarray(from, place[token])).replace(/..(?=.)/g, '$& ');
    const behind = payloadOf(this.shape, token);
    const held = items.isHolder(token) ? items.announced(token) : behind ? counted(behind, 'byte') : '';
    const whole = counted(start[end[token]] - from, 'byte');
    const where = `${whole} from byte ${grouping(from)} (0x${from.toString(16)}) on: the head `;
    return make('p.hint', where, make('code', head), held ? `, and ${held}.` : '.');
  }

  value(token, kind) {
    const { items } = this.block;
    if (kind === TEXT) {
      const shown = make('bdi', items.shortText(token, MOST_SHOWN));
      return [make('pre.whole', shown), copier('Copy the text', () => items.text(token), 'Copy text')];
    }
    if (kind === BYTES) return [octets(items.payload(token))];
    if (kind === INTEGER || kind === NEGATIVE) {
      const number = items.number(token);
      const hex = `${number < 0n ? '-' : ''}0x${(number < 0n ? -number : number).toString(16)}`;
      const copy = copier('Copy the integer', () => String(number));
      return [make('p', make('code.big', String(number)), ' ', make('span.hint', hex), ' ', copy)];
    }
    return kind === LINK ? [linkLine(items.payload(token), this)] : [];
  }
}

// A byte string, in hexadecimal and in base64.
const octets = (all) => {
  const cut = all.subarray(0, MOST_SHOWN);
  const dots = cut.length < all.length ? '…' : '';
  const row = (title, spell, said) => make('div', make('dt', title),
    make('dd', make('code', spell(cut) + dots), copier(said, () => spell(all))));
  return make('dl.facts', row('Hex', toHex, 'Copy the bytes in hexadecimal'),
    row('Base64', toBase64, 'Copy the bytes in base64'));
};
