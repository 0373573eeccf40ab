// A block, judged: what the library says, where a refusal stands, the tokens before it, the name.

import { shapeOf, addFault } from './shape.js';

const MOST_TOKENS = 4_000_000;

// The place is -1 if nothing is refused; the shape is null if there are too many tokens.
export const judge = (library, bytes) => {
  const name = library.name(bytes);
  const { code, count, place, tape } = library.tokens(bytes, MOST_TOKENS);
  const shape = tape && shapeOf(tape);
  if (shape && code < 0) addFault(shape, place);
  return { code, name, count, place: code < 0 ? place : -1, shape };
};
