// The loop of the peers in Node: a line in, a line out. A word of the command line names what the lines are, if not blocks.
'use strict';

// `rewrite` returns what is written again from the bytes of a block, or throws. For other subjects the others return
// what comes after `ok`: for `writing` from the line; for `paths` and `segments` from a block, and a text or a list of
// texts; for all else from the bytes.
exports.serve = async (rewrite, around = {}) => {
  const subject = process.argv.slice(2).find((it) => it in around);
  const answers = subject ? around[subject] : async (block) => Buffer.from(rewrite(block)).toString('hex');
  const lines = require('readline').createInterface({ input: process.stdin, crlfDelay: Infinity });
  for await (const line of lines) {
    let answer;
    try {
      answer = `ok ${await answers(...givenOf(subject, line))}`;
    } catch (error) {
      const isMemory = error instanceof RangeError && /alloc|Invalid (array|typed array) length/i.test(error.message);
      const cause = error.kind ? `${error.kind} ${error.place ?? ''}`.trimEnd() : error.name;
      answer = `refused ${isMemory ? 'memory' : cause}`;
    }
    process.stdout.write(`${answer}\n`); // to a pipe it is whole before it returns
  }
};

const givenOf = (subject, line) => {
  if (subject === 'writing') return [line];
  const [block, path] = line.split(' ');
  const texts = path?.split('/').filter(Boolean).map((it) => Buffer.from(it, 'hex').toString());
  return [Buffer.from(block, 'hex'), subject === 'paths' ? texts[0] : texts];
};

// The data of a line of DAG-JSON, in which long numbers are BigInts: of a CID's text what `link` makes of it.
exports.dataOf = (line, link) => {
  const of = (found) => {
    if (Array.isArray(found)) return found.map(of);
    if (typeof found !== 'object' || found === null) return found;
    if ('/long' in found) return BigInt(found['/long']);
    if (typeof found['/'] === 'string') return link(found['/']);
    if (found['/']) return Uint8Array.from(Buffer.from(found['/'].bytes, 'base64'));
    return Object.fromEntries(Object.entries(found).map(([key, it]) => [key, of(it)]));
  };
  return of(JSON.parse(line.replace(/(?<=[[,:])-?\d{16,}(?=[\],}])/g, '{"/long":"$&"}')));
};
