// Prints how long a block takes in node by the wasm module: the best of thirty times two thousand.
//   node wasm.mjs WASM
import fs from 'node:fs';

const { instance } = await WebAssembly.instantiate(fs.readFileSync(process.argv[2]));
const { kk_encipher: encipher, __heap_base: base } = instance.exports;
const [w0, k0, tweak] = [0x84BE85CE9804E94Bn, 0xEC2802D4E0A488E9n, 0x477D469DEC0B8762n];
const COUNT = 2000;

let best = Infinity;
for (let turn = 0; turn < 30; turn++) {
    const began = process.hrtime.bigint();
    for (let i = 0; i < COUNT; i++) {
        if (encipher(1n, 7n, w0, k0, tweak, BigInt(i), base.value, 8n) !== 8n) {
            throw new Error('refused');
        }
    }
    best = Math.min(best, Number(process.hrtime.bigint() - began) / COUNT);
}
console.log(`wasm32 in node ${process.version}: ${best.toFixed(0)} ns a block`);
