// node --experimental-wasm-memory64 call.js dagcbor_ffi.wasm TABLE TEXTS HEADERS SECTIONS PATHS
// SEGMENTS NODES MODELS FILES (later versions need no flag). Compares the module with each row of
// the tables.
'use strict';
const { readFileSync } = require('fs');
const { load, unpacked } = require('../node/wasm/dagcbor.js');

const hex = (bytes) => Buffer.from(bytes).toString('hex');
const bytesOf = (text) => Buffer.from(text === '-' ? '' : text, 'hex');
const told = (answer) =>
  typeof answer === 'number' ? String(answer) : answer.map(hex).join(',') || '-';

// kind:number:place of each token, a comma between
const toldOf = (words) => String(words).replace(/(\d+),(\d+),(\d+)/g, '$1:$2:$3') || '-';

const isRight = ({ check, tape, tokens, spell, links, name }, row) => {
  const [text, kind, first, cids, named, wanted, place, before] = row;
  const block = Buffer.from(text === '-' ? '' : text, 'hex');
  const words = tape(block);
  if (String(check(block)) !== kind || hex(name(block)) !== named) return false;
  if (told(links(block)) !== (Number(first) < 0 ? first : cids)) return false;
  const front = tokens(block);
  if (String(front.code) !== kind) return false;
  if (Number(kind) < 0) {
    if (String(front.place) !== place || toldOf(front.tape) !== before) return false;
    return String(words) === kind;
  }
  if (front.place !== block.length || toldOf(front.tape) !== wanted) return false;
  // Its tokens tell the block again. Without the last it ends too early, and none has the kind 9.
  if (toldOf(words) !== wanted) return false;
  if (spell(block, words.subarray(0, -3)) !== -3) return false;
  if (spell(block, BigUint64Array.of(9n, 0n, 0n)) !== -20) return false;
  return hex(spell(block, words)) === hex(block);
};

const [MORE, HEADER, END] = [10, 11, 12]; // what comes next, beside sections
const EMPTY = bytesOf('11a265726f6f7473806776657273696f6e01'); // the header of no roots

const SECOND = '0aa16776657273696f6e02'; // begins a file of version 2, which is no header of version 1
const isRightHeader = ({ carWalk, carNext }, [text, code, roots, end]) => {
  const walk = carWalk();
  if (text.startsWith(SECOND)) return code === '-27';
  const { cause, links } = carNext(walk, bytesOf(text), true);
  if (Number(code) < 0) return String(cause) === code;
  return cause === HEADER && told(unpacked(links)) === roots && String(walk[0]) === end;
};

// The section after a header.
const isRightSection = ({ carWalk, carNext }, [text, code, wanted]) => {
  const walk = carWalk();
  const file = Buffer.concat([EMPTY, bytesOf(text)]);
  if (carNext(walk, file, true).cause !== HEADER) return false;
  const { cause, codes, places } = carNext(walk, file.subarray(EMPTY.length), true);
  if (text === '-') return cause === END;
  return String(codes[0] ?? cause) === code && (places.slice(0, 3).join(':') || '-') === wanted;
};

// The roots, the sections and the fault of a file, as its row tells them, if its bytes come in two parts.
const walked = ({ carWalk, carNext }, file, cut) => {
  const [walk, sections] = [carWalk(), []];
  for (let [roots, to] = ['-', cut]; ;) {
    const from = Math.min(Number(walk[0]), to);
    const isLast = to === file.length;
    const { cause, codes, places, links } = carNext(walk, file.subarray(from, to), isLast);
    codes.forEach((code, i) => {
      const [cid, block, end] = places.slice(3 * i, 3 * i + 3).map((it) => from + it);
      sections.push(`${hex(file.subarray(cid, block))}:${end - block}:${code}`);
    });
    if (cause === HEADER) roots = told(unpacked(links));
    else if (cause === MORE && !isLast) to = file.length;
    else return `${roots} ${sections.join(',') || '-'} ${cause === END ? '-' : `${cause}:${walk[0]}`}`;
  }
};

const isRightFile = (module, [text, roots, sections, fault]) => {
  const file = bytesOf(text);
  const cuts = Array.from({ length: Math.min(file.length + 1, 1000) }, (_, i) => i);
  return cuts.every((cut) => walked(module, file, cut) === `${roots} ${sections} ${fault}`);
};

const isRightText = ({ cidText, cidFromText }, [text, code, cid, written]) => {
  const read = cidFromText(text === '-' ? '' : text);
  if (Number(code) < 0) return String(read) === code;
  return hex(read) === cid && cidText(read) === written && cidText(read.subarray(1)) === -26;
};

const isRightPath = ({ follow }, [block, path, code, begin, end, passed]) => {
  const [bytes, text] = [block, path].map((it) => Buffer.from(it === '-' ? '' : it, 'hex'));
  const found = follow(bytes, text);
  if (Number(code) < 0) return String(found) === code;
  return `${found.kind} ${found.begin} ${found.end} ${found.passed}` === `${code} ${begin} ${end} ${passed}`;
};

// A call for each segment, in the bytes of the item to which those before it lead.
const areRightSegments = ({ check, part }, [block, segments, code, begin, end]) => {
  let item = Buffer.from(block === '-' ? '' : block, 'hex');
  let found = { kind: check(item), begin: 0, end: item.length };
  let place = 0;
  for (const it of segments.split('/').filter(Boolean)) {
    found = part(item, Buffer.from(it === '-' ? '' : it, 'hex'));
    if (typeof found === 'number') return String(found) === code;
    item = item.subarray(found.begin, found.end);
    place += found.begin;
  }
  return `${found.kind} ${place} ${place + item.length}` === `${code} ${begin} ${end}`;
};

const put = (answer) => (typeof answer === 'number' ? `${answer} -` : `0 ${hex(answer) || '-'}`);

const isRightNode = ({ fromNode, placeInNode, nodeLinks }, [text, code, place, wanted, ...linked]) => {
  const node = bytesOf(text);
  if (put(fromNode(node)) !== `${code} ${wanted}` || String(placeInNode(node)) !== place) return false;
  return told(nodeLinks(node)) === (Number(linked[0]) < 0 ? linked[0] : linked[1]);
};

const isRightModel = ({ toNode }, [text, code, wanted]) =>
  put(toNode(bytesOf(text))) === `${code} ${wanted}`;

const rowsOf = (table) => {
  const lines = readFileSync(table, 'utf8').split('\n');
  return lines.filter((it) => it && !it.startsWith('#')).map((it) => it.split(' '));
};

const main = async () => {
  const module = await load(readFileSync(process.argv[2]));
  const tables = process.argv.slice(3).map(rowsOf);
  const holds = [
    isRight, isRightText, isRightHeader, isRightSection, isRightPath, areRightSegments,
    isRightNode, isRightModel, isRightFile,
  ];
  const wrong = tables.flatMap((rows, i) => rows.filter((it) => !holds[i](module, it)))[0];
  const counts = tables.map((rows) => rows.length);
  console.log(wrong ? `wrong: ${wrong[0]}` : `${counts.join(', ')} rows`);
  return wrong || counts.length !== holds.length || counts.includes(0) ? 1 : 0;
};

main().then((status) => { process.exitCode = status; });
