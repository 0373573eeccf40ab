// Paths, such as a/0/b: the one to an item, and the item to which one leads, as the library says.

import { LINK, LIST } from './kinds.js';
import { tokenAt } from './shape.js';
import { fromUtf8 } from './text.js';

const toUtf8 = new TextEncoder();
let follower; // the library, which follows a path in a block

export const followBy = (it) => { follower = it; };

// Null if a key on the way is empty or has a slash: no path has such a segment.
export const pathTo = (items, value) => {
  const { parent, order } = items.shape;
  const segments = [];
  for (let at = value; parent[at] >= 0; at = parent[at]) {
    const key = items.keyOf(at);
    if (key < 0 && items.kind(parent[at]) !== LIST) return null; // where reading stopped
    segments.unshift(key < 0 ? String(order[at]) : items.text(key));
  }
  return segments.every((it) => it && !it.includes('/')) ? segments.join('/') : null;
};

// The last item to which a front of the path leads in a block, what is left of the path, and if it
// goes on in the block of a link.
export const itemAt = ({ bytes, items }, path) => {
  const text = toUtf8.encode(path);
  const { begin, passed, kind } = follower.follow(bytes, text);
  const left = fromUtf8(text.subarray(passed));
  return { token: tokenAt(items.shape, begin), left, goesOn: kind === LINK };
};
