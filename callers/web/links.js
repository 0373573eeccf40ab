// The links of a block.

import { LINK } from './kinds.js';
import { cidParts, cidText } from './cid.js';
import { button, copier, growing, make } from './dom.js';

const LINKS_AT_ONCE = 200;

// A CID, what it says, and the way to its block if that is in the file.
export const linkLine = (cid, { canFollow, follow }) => {
  const { version, codec, hash } = cidParts(cid);
  const text = cidText(cid);
  const parts = make('span.hint', `version ${version}, ${codec}, ${hash}`);
  const copy = copier('Copy the CID', () => text);
  const line = make('p.link-line', make('code.cid', text), ' ', parts, ' ', copy);
  const open = () => follow(cid.slice());
  if (canFollow(cid)) line.append(' ', button('Open its block', open, '.quiet'));
  return line;
};

export const linksOf = ({ count, kind }) => {
  const found = [];
  for (let i = 0; i < count; i += 1) if (kind[i] === LINK) found.push(i);
  return found;
};

// `reach` is told of the token of a link whose path is pressed.
export const linkList = (items, links, { reach, ...ways }) => {
  if (!links.length) return make('p.hint', 'It links to no other block.');
  return growing(make('ol.links'), links, LINKS_AT_ONCE, (token) => {
    const path = button(items.path(token), () => reach(token), '.path');
    return make('li', path, linkLine(items.payload(token), ways));
  });
};
