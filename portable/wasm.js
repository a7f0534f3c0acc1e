// Runs the driver in node: node wasm.js MODULE CALLS SEED.
"use strict";
const fs = require("fs");

const [module_, calls, seed] = process.argv.slice(2);
let memory;
const say = (at) => {
    const bytes = new Uint8Array(memory.buffer);
    let end = at;
    while (bytes[end] !== 0) end++;
    fs.writeSync(1, bytes.subarray(at, end));
};
WebAssembly.instantiate(fs.readFileSync(module_), { env: { say } }).then(({ instance }) => {
    memory = instance.exports.memory;
    process.exit(instance.exports.run(Number(calls), Number(seed)));
});
