// Compares the package with the vectors of conformance/, and values with each other, in any engine:
// `read` returns the text of a file of conformance/vectors.

const hexOf = (bytes) => Array.from(bytes, (it) => it.toString(16).padStart(2, '0')).join('');
const bytesOf = ({ bytes, repeat = [[bytes, 1]] }) => {
  const text = repeat.map(([part, count]) => part.repeat(count)).join('');
  return Uint8Array.from(text.match(/../g) ?? [], (it) => parseInt(it, 16));
};

const same = (found, wanted, of) => {
  if (found !== wanted) throw new Error(`${of}: ${found}, and not ${wanted}`);
};

export const hold = async (dagcbor, read) => {
  const { CID, CarBlockIterator, CarBufferReader, CarIndexedReader, CarReader, CarWriter } = dagcbor;
  const { DagCborError, check, checkCar, decode, decodeFirst, encode, find, links, name, resolve, tape, verify } = dagcbor;
  const index = JSON.parse(await read('index.json'));
  const rowsOf = async (group) => (await read(`${group}.jsonl`)).trim().split('\n').map(JSON.parse);
  const causeOf = (group, { cause }) => (index.forms[group] ?? index).variants[cause];
  const refusal = (call) => {
    try {
      return `answered ${call()}`;
    } catch (error) {
      return error instanceof DagCborError ? error : `${error.stack}`;
    }
  };

  const isRight = (group, row) => {
    const block = bytesOf(row);
    const hex = hexOf(block);
    if (row.verdict !== 'ok') {
      for (const call of [check, tape, decode]) {
        const { kind, place } = refusal(() => call(block));
        same(`${kind} ${place}`, `${causeOf(group, row)} ${row.at}`, hex);
      }
      return;
    }
    same(check(block), row.kind, hex);
    same(String(name(block)), row.cid, hex);
    same(String(links(block)), String(row.links), hex);
    if (row.tokens) same(String(tape(block)), row.tokens.replaceAll(':', ','), hex);
    same(hexOf(encode(decode(block))), hex, hex);
    same(decodeFirst(block)[1].length, 0, hex);
    same(verify(name(block), block), `ok ${row.kind}`, hex);
  };

  const isRightFile = async (row) => {
    const bytes = bytesOf(row);
    const pieces = Array.from(bytes, (it) => Uint8Array.of(it));
    const told = (row.sections ?? []).map((it) => `${it.cid} ${it.end - it.block}`);
    const held = refusal(() => CarBufferReader.fromBytes(bytes).blocks().map((it) => `${it.cid} ${it.bytes.length}`));
    const atOnce = held instanceof DagCborError ? `${held.kind} ${held.place}` : held;
    same(atOnce, row.verdict === 'refused' ? `${causeOf('files', row)} ${row.at}` : `answered ${told}`, hexOf(bytes));
    for (const source of [bytes, [bytes], pieces]) {
      const found = [];
      let [fault, missing] = ['', row.missing ?? []];
      try {
        for await (const it of await CarBlockIterator.fromIterable(source)) {
          found.push(`${it.cid} ${it.bytes.length}`);
        }
        missing = (await checkCar(source)).missing.map(String);
      } catch (error) {
        fault = `${error.kind} ${error.place}`;
      }
      const wanted = row.verdict === 'refused' ? `${causeOf('files', row)} ${row.at}` : '';
      same(fault, wanted, hexOf(bytes));
      same(String(found), String(told), hexOf(bytes));
      same(String(missing), String(row.missing ?? []), hexOf(bytes));
    }
  };

  let count = 0;
  for (const group of Object.keys(index.groups)) {
    for (const row of await rowsOf(group)) isRight(group, row), (count += 1);
  }
  for (const row of await rowsOf('files')) await isRightFile(row), (count += 1);

  const texts = ['', 'a', 'é', '水', '𐅑', 'x'.repeat(23), 'é'.repeat(23), '水'.repeat(24), '𐅑'.repeat(99)];
  texts.push('x'.repeat(70000), '水'.repeat(70000));
  const many = Object.fromEntries(Array.from({ length: 20000 }, (_, i) => [`k${(i * 7919) % 20000}`, i]));
  const long = Object.fromEntries(texts.map((it, i) => [it, [i, it, 2n ** 63n, -1, null, true]]));
  for (const value of [texts, many, long, [long, long, long], new Uint8Array(300000), -(2n ** 64n)]) {
    const block = encode(value);
    same(hexOf(encode(decode(block))), hexOf(block), 'a value');
  }
  class Own { a = 1; }
  same(hexOf(encode([new Own(), new Map([['b', new Map()]])])), '82a1616101a16162a0', 'objects');
  const [untold, tagged] = [Object.setPrototypeOf(new Map(), null), new Date()];
  tagged[Symbol.toStringTag] = 'Object';
  const others = [untold, tagged, undefined, 0.5, new Date(), new Set(), new Uint16Array(1), '\ud800', () => 1];
  others.push(new Proxy(new Date(), {}), new Proxy(new Map(), {}), new Proxy(new Uint8Array(1), {}));
  others.push(new Proxy(name(new Uint8Array()), {}), new Proxy(new Set(), {}), new Proxy(/a/, {}));
  for (const it of others) {
    const { kind, place } = refusal(() => encode({ a: [it] }));
    same(`${['Unsupported', 'RequireUtf8'].includes(kind)} ${place}`, 'true a,0', String(kind));
  }
  // What is no Proxy is not called one.
  for (const it of [new Date(), new Set([1]), new Uint16Array(1), /a/, Object.assign(new Error(), { a: 1 }), Object(1)]) {
    const { message } = refusal(() => encode(it));
    same(message, 'an object that is no Array, Uint8Array, CID, Map or map', 'an object');
  }
  same(refusal(() => encode(new Proxy(new Date(), {}))).message, 'a Proxy of neither an Array nor a plain object', 'a Proxy');

  const leaf = encode({ b: 'hi' });
  const root = encode({ a: [name(leaf)] });
  same(find(root, 'a/0').toString(), name(leaf).toString(), 'find');
  const get = (cid) => [root, leaf].find((it) => name(it).equals(cid));
  same(await resolve(get, name(root), 'a/0/b'), 'hi', 'resolve');
  const { writer, out } = CarWriter.create(name(root));
  for (const bytes of [root, leaf]) writer.put({ cid: name(bytes), bytes });
  writer.close();
  const reader = await CarReader.fromIterable(out);
  same(hexOf((await reader.get(CID.parse(String(name(leaf))))).bytes), hexOf(leaf), 'a file');
  const noFile = await CarIndexedReader.fromFile('a.car').catch((error) => error.message);
  same(noFile, 'files are opened by the package for Node alone', 'a file on disk');
  return `${count} vectors`;
};
