// Bytes and numbers as text, and text that is safe to look at.

const HEX = Array.from({ length: 256 }, (_, it) => it.toString(16).padStart(2, '0'));

export const hexByte = (byte) => HEX[byte];

export const toHex = (bytes) => {
  let text = '';
  for (const byte of bytes) text += HEX[byte];
  return text;
};

export const toBase64 = (bytes) => {
  let text = '';
  for (let i = 0; i < bytes.length; i += 0x8000) {
    text += String.fromCharCode(...bytes.subarray(i, i + 0x8000));
  }
  return btoa(text);
};

export const fromBase64 = (text) => {
  const plain = text.replace(/-/g, '+').replace(/_/g, '/').replace(/=+$/, '');
  if (!/^[A-Za-z0-9+/]*$/.test(plain) || plain.length % 4 === 1) return null;
  const units = atob(plain);
  if (btoa(units).replace(/=+$/, '') !== plain) return null; // bits after the last byte
  return Uint8Array.from(units, (it) => it.charCodeAt(0));
};

// Hexadecimal if it can be that, else base64: what it was read as and the bytes, or null.
export const fromText = (text) => {
  const hex = text.replace(/^\s*0x/i, '').replace(/[\s:,]+/g, '');
  if (/^[0-9a-f]*$/i.test(hex) && hex.length % 2 === 0) {
    const digits = hex.match(/../g) ?? [];
    return { as: 'hexadecimal', bytes: Uint8Array.from(digits, (it) => parseInt(it, 16)) };
  }
  const bytes = fromBase64(text.replace(/\s+/g, ''));
  return bytes && { as: 'base64', bytes };
};

const utf8 = new TextDecoder('utf-8', { ignoreBOM: true });

export const fromUtf8 = (bytes) => utf8.decode(bytes);

// What shows as nothing, or turns the direction of what stands around it; not what joins pictures.
const UNSEEN =
  /[\u0000-\u001f\u007f-\u00a0\u00ad\u034f\u061c\u115f\u1160\u17b4\u17b5\u180b-\u180f\u200b\u200c\u200e\u200f\u2028-\u202f\u205f-\u206f\u3164\ufe00-\ufe0e\ufeff\uffa0\ufff0-\ufffb]|[\u{e0000}-\u{e0fff}]|(?<!\p{Extended_Pictographic}\ufe0f?|\p{Emoji_Modifier})\u200d|(?<!\p{Emoji})\ufe0f/gu;

// A JSON string: what turns the direction, or parts lines, is escaped.
export const jsonText = (text) => JSON.stringify(text).replace(
  /[\u007f-\u009f\u061c\u200b\u200e\u200f\u2028-\u202e\u2060-\u206f\ufeff]/g,
  (it) => `\\u${it.charCodeAt(0).toString(16).padStart(4, '0')}`);

const escaped = (it) => {
  if (it === '\n') return '\\n';
  if (it === '\t') return '\\t';
  if (it === '\r') return '\\r';
  return `\\u{${it.codePointAt(0).toString(16)}}`;
};

// In quotes, with everything that does not show escaped; cut if it is longer.
export const quoted = (text, most = Infinity) => {
  const cut = text.length > most ? text.slice(0, most) : text;
  const shown = cut.replace(/["\\]/g, '\\$&').replace(UNSEEN, escaped);
  return text.length > most ? `"${shown}…` : `"${shown}"`;
};

const grouped = new Intl.NumberFormat('en');

export const counted = (number, one, many = `${one}s`) =>
  `${grouped.format(number)} ${BigInt(number) === 1n ? one : many}`;

export const grouping = (number) => grouped.format(number);

export const sizeOf = (bytes) => {
  if (bytes < 10_000) return counted(bytes, 'byte');
  const [unit, name] = bytes < 1e6 ? [1e3, 'kB'] : bytes < 1e9 ? [1e6, 'MB'] : [1e9, 'GB'];
  return `${(bytes / unit).toFixed(1)} ${name}`;
};
