// The vectors that all codecs can be held against, as conformance/ has them.
'use strict';
const { readFileSync } = require('fs');
const { join } = require('path');

const folder = join(__dirname, '../../../conformance/vectors');
const read = (name) => readFileSync(join(folder, name), 'utf8');
const index = JSON.parse(read('index.json'));
const variantsOf = (group) => (index.forms[group] ?? index).variants;

const bytesOf = ({ bytes, repeat = [[bytes, 1]] }) =>
  Buffer.concat(repeat.map(([part, count]) => Buffer.from(part.repeat(count), 'hex')));

// The vectors of a group, each with its bytes, and with the name that the library has of its cause.
const vectorsOf = (group) => read(`${group}.jsonl`).trim().split('\n').map(JSON.parse).map(
  (it) => ({ ...it, bytes: bytesOf(it), variant: variantsOf(group)[it.cause] }));

const blocks = () => Object.keys(index.groups).flatMap(vectorsOf);

// What is said of the block of a section, with the name that the library has of a cause.
const verdictOf = ({ verdict }) =>
  verdict.replace(/^refused (.*)/, (_, cause) => `refused ${index.variants[cause]}`);

module.exports = { blocks, vectorsOf, verdictOf };
