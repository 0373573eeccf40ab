// One block: its verdict, its name, and its views.

import { NOT_VERIFIED, OTHER_BYTES } from './kinds.js';
import { FAULT, addFault, shapeOf } from './shape.js';
import { cidParts, cidText } from './cid.js';
import { counted, grouping, hexByte, sizeOf } from './text.js';
import { copier, make } from './dom.js';
import { Editor } from './editor.js';
import { Explorer } from './explorer.js';
import { Items } from './items.js';
import { jsonView } from './jsonview.js';
import { linkList, linksOf } from './links.js';
import { Tabs } from './tabs.js';
import { KINDS, refusalOf, sectionOf } from './verdicts.js';

export class BlockView {
  // `judged` is the worker's answer; `section` what a CAR file says of it, if it is of one;
  // `note` a sentence about where it is from.
  constructor(asker, judged, { section, canFollow, follow, edited, note }) {
    Object.assign(this, judged, { asker, section, canFollow, follow, edited });
    this.isOtherCodec = Boolean(section) && cidParts(section.cid).codec !== 'DAG-CBOR';
    this.isOther = Boolean(section) && [OTHER_BYTES, NOT_VERIFIED].includes(section.code);
    if (!this.shape && this.place >= 0) {
      this.shape = shapeOf(new BigUint64Array());
      addFault(this.shape, this.place);
    }
    this.items = this.shape && !this.isOtherCodec ? new Items(this.bytes, this.shape) : null;
    const tabs = new Tabs('Views of the block', this.parts());
    this.tabs = tabs;
    const told = note ? make('p.hint', note) : null;
    const { bar, panels } = tabs;
    this.element = make('article.block', told, this.verdict(), this.facts(), bar, ...panels);
  }

  get isBlock() {
    return this.code >= 0;
  }

  // The verdict.

  verdict() {
    if (this.isOtherCodec) {
      const { code, cid } = this.section;
      const { asks } = sectionOf(code);
      if (code === OTHER_BYTES) return banner('bad', 'Not the block that is named', asks);
      return banner('note', `A block of another codec: ${cidParts(cid).codec}`, asks);
    }
    const other = this.isOther ? sectionOf(this.section.code).asks : '';
    if (this.isBlock) return this.verdictOfBlock(other);
    const { name, title, asks } = refusalOf(this.code);
    const told = banner('bad', `No block: ${title[0].toLowerCase()}${title.slice(1)}`, asks);
    told.querySelector('h2').append(' ', make('code.name', name));
    told.append(make('p.where', ...this.where()));
    if (other) told.append(make('p', other));
    return told;
  }

  verdictOfBlock(other) {
    const kind = KINDS[this.code];
    if (!other) {
      const size = `${counted(this.count, 'item')} in ${sizeOf(this.bytes.length)}`;
      return banner('good', `A block: ${kind}`, `${size}, spelled the one way that DAG-CBOR has.`);
    }
    const text = `${other} The bytes themselves are a block: ${kind}.`;
    return this.section.code === OTHER_BYTES
      ? banner('bad', 'Not the block that is named', text) : banner('note', 'Not verified', text);
  }

  where() {
    const { place, bytes, fault } = this;
    const parts = [];
    if (place === bytes.length) {
      parts.push(`Read to the end, byte ${grouping(place)}; more is needed there.`);
    } else {
      const byte = make('code.byte.is-fault', hexByte(bytes[place]));
      parts.push(`At byte ${grouping(place)} (0x${place.toString(16)}), `, byte);
      parts.push(': no block has it there, whatever follows.');
    }
    const { start } = fault;
    if (start < place) parts.push(` What is refused begins at byte ${grouping(start)}.`);
    if (this.shape.count > 1) parts.push(' What stands before is shown below, to the fault.');
    return parts;
  }

  // The place where a refused block stops, and where what is refused begins.
  get fault() {
    if (this.isBlock || !this.items) return null;
    const last = this.shape.count - 1;
    const start = this.shape.kind[last] === FAULT ? this.shape.start[last] : this.place;
    return { code: this.code, place: this.place, start };
  }

  // Its name and size.

  facts() {
    const list = make('dl.facts');
    const put = (title, ...held) => {
      list.append(make('div', make('dt', title), make('dd', ...held)));
    };
    const cid = (bytes) => {
      const text = cidText(bytes);
      return [make('code.cid', text), copier('Copy the CID', () => text)];
    };
    const { section, name } = this;
    if (section) put('CID in the file', ...cid(section.cid));
    const isSame = section && cidText(section.cid) === cidText(name);
    if (!isSame && !this.isOtherCodec) put(section ? 'CID of these bytes' : 'CID', ...cid(name));
    const { version, codec, hash } = cidParts(section?.cid ?? name);
    put('The CID’s parts', `version ${version}, ${codec}, ${hash}`);
    put('Size', counted(this.bytes.length, 'byte'));
    return list;
  }

  // Its views.

  parts() {
    const parts = [[this.isOtherCodec ? 'Bytes' : 'Tree and bytes', () => this.explored()]];
    if (!this.isBlock || !this.items) return parts;
    const links = linksOf(this.shape);
    const { asker, items, canFollow, follow } = this;
    const ways = { canFollow, follow, reach: (token) => this.reach(token) };
    return [
      ...parts,
      [`Links ${grouping(links.length)}`, () => linkList(items, links, ways)],
      ['DAG-JSON', () => jsonView(asker, this)],
      ['Edit', () => new Editor(asker, this, { open: this.edited }).element],
    ];
  }

  explored() {
    const { canFollow, follow, fault } = this;
    const why = this.isOtherCodec ? 'Only DAG-CBOR has a tree here.'
      : `${counted(this.count, 'item')}: too many for a tree here.`;
    const suffix = this.isOtherCodec ? 'bin' : 'dagcbor';
    const name = `${cidText(this.section?.cid ?? this.name)}.${suffix}`;
    this.explorer = new Explorer(this, { why, fault, name, follow, canFollow });
    return this.explorer.element;
  }

  reach(token) {
    this.tabs.choose(0);
    this.explorer.pick(token, 'tree');
    this.explorer.tree.host.focus();
  }

  afterShown() {
    this.explorer.afterShown();
  }
}

const banner = (how, title, text) => {
  const mark = make('span.mark', { good: '✓', bad: '✕', note: 'i' }[how]);
  mark.setAttribute('aria-hidden', 'true');
  const told = make(`div.banner.is-${how}`, make('h2', mark, title));
  if (text) told.append(make('p', text));
  return told;
};
