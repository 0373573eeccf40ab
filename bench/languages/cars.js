// Seconds of the processor for one go through a CAR file, in each way: cars.js PACKAGE FILE
// COUNT. Prints them in a line: `checkCar` of a stream, and of the bytes; `CarBlockIterator` of a
// stream.
'use strict';
const assert = require('assert');
const { createReadStream, readFileSync } = require('fs');
const { CarBlockIterator, checkCar } = require(process.argv[2]);

const [file, count] = [process.argv[3], Number(process.argv[4])];
const sum = ({ verdicts }) => Object.values(verdicts).reduce((one, other) => one + other);
const calls = [
  async () => sum(await checkCar(createReadStream(file))),
  async () => sum(await checkCar(readFileSync(file))),
  async () => {
    let sections = 0;
    for await (const it of await CarBlockIterator.fromIterable(createReadStream(file))) {
      sections += it.verdict.startsWith('ok ');
    }
    return sections;
  },
];

const main = async () => {
  const told = [];
  for (const call of calls) {
    const began = process.cpuUsage();
    assert.strictEqual(await call(), count);
    const { user, system } = process.cpuUsage(began);
    told.push((user + system) / 1e6);
  }
  console.log(told.join(' '));
};

main();
