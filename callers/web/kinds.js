// Numbers of the library: the kinds of tokens, and the refusals that the page asks for.

export const NULL = 0;
export const BOOL = 1;
export const INTEGER = 2;
export const TEXT = 3;
export const BYTES = 4;
export const LIST = 5;
export const MAP = 6;
export const LINK = 7;
export const NEGATIVE = 8;

// The verdict on a section's block.
export const OTHER_CODEC = 9;
export const OTHER_BYTES = -22;
export const NOT_VERIFIED = -23;

// What comes next in a CAR file, beside sections.
export const MORE_BYTES = 10; // are wanted before it is known
export const THE_HEADER = 11;
export const THE_END = 12;

// Only of this page: a section that it does not read.
export const TOO_LONG = -100;
