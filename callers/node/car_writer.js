// Writes CAR files: index.d.ts says what each call does.
'use strict';
const { whole } = require('./bytes.js');
const {
  blockLength, calculateHeaderLength, headerLength, headerOf, sectionOf,
} = require('./car_parts.js');
const { Walk } = require('./car_walk.js');
const { DagCborError } = require('./errors.js');
const { readAll, writeAt } = require('./platform.js');

// Pieces that one side puts and the other takes: a put ends when the next is asked for.
const channel = () => {
  const waiting = [];
  let [isClosed, wake] = [false, () => {}];
  const put = (piece) => new Promise((done, fail) => {
    if (isClosed) fail(new Error('the writer is closed'));
    else waiting.push({ piece, done });
    wake();
  });
  const close = () => {
    const ended = put(undefined);
    isClosed = true;
    return ended;
  };
  const all = async function* () {
    try {
      yield;
      for (;;) {
        while (!waiting.length) await new Promise((done) => { wake = done; });
        const { piece, done } = waiting[0];
        if (!piece) return;
        yield piece;
        waiting.shift();
        done();
      }
    } finally {
      isClosed = true;
      for (const { done } of waiting) done();
    }
  };
  const out = all();
  out.next(); // begins it, so that its end is seen also where nobody asks for a piece
  return { put, close, out };
};

// The header of other roots, which takes the place of the file's header, if it fits.
const headerInPlace = async (source, roots) => {
  const { front } = await new Walk().begin(source);
  const header = headerOf(roots);
  if (front.version !== 1) throw new DagCborError('OtherHeader', 'the file is of version 2');
  if (header.length === front.end) return header;
  const lengths = `the header has ${front.end} bytes, and that of these roots ${header.length}`;
  throw new DagCborError('LengthMismatch', lengths);
};

class CarWriter {
  #put;
  #close;

  constructor(put, close) {
    this.#put = put;
    this.#close = close;
  }

  static create(roots = []) {
    const header = headerOf(roots);
    const made = CarWriter.createAppender();
    made.writer.#put(header);
    return made;
  }

  static createAppender() {
    const { put, close, out } = channel();
    return { writer: new CarWriter(put, close), out };
  }

  static async updateRootsInBytes(bytes, roots) {
    whole(bytes).set(await headerInPlace(bytes, roots));
    return bytes;
  }

  static async updateRootsInFile(file, roots) {
    await writeAt(file, await headerInPlace(readAll(file), roots), 0);
  }

  async put(block) {
    return this.#put(sectionOf(block));
  }

  async close() {
    return this.#close();
  }
}

// A file in memory of a given size: first the room of the header, then sections up to `end`.
class BufferWriter {
  #bytes;
  #roots;
  #header;
  #end;

  constructor(bytes, roots, header) {
    this.#bytes = bytes;
    this.#roots = roots;
    this.#header = header;
    this.#end = header;
    this.#fits(0);
  }

  #fits(more) {
    const room = this.#bytes.length - this.#end;
    if (more > room) throw new RangeError(`${more} bytes are wanted, and there is room for ${room}`);
  }

  #sizeHeader(size, resize) {
    if (!resize) throw new RangeError(`the header has ${size} bytes, and room for ${this.#header}`);
    this.#fits(size - this.#header);
    this.#bytes.copyWithin(size, this.#header, this.#end);
    this.#end += size - this.#header;
    this.#header = size;
  }

  addRoot(root, { resize = false } = {}) {
    const roots = [...this.#roots, root];
    const size = headerOf(roots).length;
    if (size > this.#header) this.#sizeHeader(size, resize);
    this.#roots = roots;
  }

  write(block) {
    const section = sectionOf(block);
    this.#fits(section.length);
    this.#bytes.set(section, this.#end);
    this.#end += section.length;
  }

  close({ resize = false } = {}) {
    const header = headerOf(this.#roots);
    if (header.length !== this.#header) this.#sizeHeader(header.length, resize);
    this.#bytes.set(header);
    return this.#bytes.subarray(0, this.#end);
  }
}

const createWriter = (buffer, options = {}) => {
  const { roots = [], byteOffset = 0, byteLength = buffer.byteLength - byteOffset } = options;
  const bytes = new Uint8Array(buffer, byteOffset, byteLength);
  return new BufferWriter(bytes, roots, options.headerSize ?? headerLength({ roots }));
};

const CID_LENGTH = 36; // of version 1, by SHA-256
const estimateHeaderLength = (count, length = CID_LENGTH) =>
  calculateHeaderLength(Array(count).fill(length));

const CarBufferWriter = {
  blockLength, calculateHeaderLength, createWriter, estimateHeaderLength, headerLength,
};

module.exports = { CarBufferWriter, CarWriter };
