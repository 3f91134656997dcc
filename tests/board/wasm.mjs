// Calls the wasm module as a page in a browser would: with the cases that the second program made, of which
// tests/board/calls.h says how they are written. The module needs nothing from outside, and exports every call of
// the header, its memory, and the place from which on the memory is the caller's.
//   node wasm.mjs WASM HEADER CALLS CASES..
import fs from 'node:fs';
import assert from 'node:assert/strict';

const [, , file, header, table, ...files] = process.argv;
const module = await WebAssembly.compile(fs.readFileSync(file));
const prototypes = [...fs.readFileSync(header, 'utf8').matchAll(/^uint64_t (kk\w+)\(([^)]*)\);/gm)];
const declared = prototypes.map(([, name]) => name);
assert.deepEqual(WebAssembly.Module.imports(module), []);
const exported = WebAssembly.Module.exports(module).map(({ name }) => name);
assert.deepEqual(exported.sort(), [...declared, 'memory', '__heap_base'].sort());

// Of each call, in the header's order: how many numbers it takes, and how many slices it reads.
const rows = [...fs.readFileSync(table, 'utf8').matchAll(/^ +CALL\((kk\w+), "(\w*)", "(\w*)",/gm)];
const shapes = rows.map(([, name, numbers, slices]) => [name, numbers.length, slices.length]);
assert.deepEqual(shapes.map(([name]) => name), declared);

// The table says s of each parameter that is secret by its name, and p of the others. A value of 128 bits has the
// names of its halves: w0_high and w0_low.
const SECRET = ['w0', 'w1', 'k0', 'k1', 'tweak', 'block', 'message'];
const kinds = ([, name, parameters]) => {
    const names = parameters.split(',').map((parameter) => parameter.match(/\w+$/)[0]);
    const kind = (parameter) => (SECRET.includes(parameter.replace(/_(high|low)$/, '')) ? 's' : 'p');
    const numbers = names.filter((_, i) => /^\s*uint64_t \w+$/.test(parameters.split(',')[i]));
    const slices = names.filter((_, i) => /const uint8_t \*/.test(parameters.split(',')[i]));
    return [name, numbers.map(kind).join(''), slices.map(kind).join('')];
};
assert.deepEqual(rows.map(([, ...row]) => row), prototypes.map(kinds));

const { exports: library } = await WebAssembly.instantiate(module);
const { memory } = library;
memory.grow(4);
const base = library.__heap_base.value;
const GUARD = 32;
let count = 0;

// Reads the case at a place of some bytes, and gives it with the place behind it.
function read(bytes, at) {
    const call = bytes[at++];
    const [, numbers, slices] = shapes[call];
    const number = () => bytes.readBigUInt64BE((at += 8) - 8);
    const length = () => bytes.readUInt32BE((at += 4) - 4);
    const slice = (size) => bytes.subarray((at += size) - size, at);
    const one = { call: declared[call], numbers: Array.from({ length: numbers }, number) };
    one.slices = Array.from({ length: slices }, () => slice(length()));
    one.room = length();
    one.answer = number();
    one.written = slice(one.answer >> 56n ? 0 : Number(one.answer & 0xFFFFFFFFn));
    return [one, at];
}

function attempt(one, fill) {
    const all = new Uint8Array(memory.buffer);
    const start = base + count % 8;
    const words = [...one.numbers];
    let place = start;
    for (const slice of one.slices) {
        words.push(place, BigInt(slice.length));
        place += slice.length;
    }
    words.push(place + GUARD, BigInt(one.room));
    // The slices that are read, a guard, the lent memory, and a guard.
    const guarded = new Uint8Array(GUARD + one.room + GUARD).map((_, i) => fill ^ i * 29);
    const meant = Buffer.concat([...one.slices, guarded]);
    all.set(meant, start);
    assert.equal(BigInt.asUintN(64, library[one.call](...words)), one.answer);
    meant.set(one.written, place - start + GUARD);
    assert.ok(meant.equals(all.subarray(start, start + meant.length)));
}

for (const file of files) {
    const bytes = fs.readFileSync(file);
    let at = 0;
    for (let one; bytes[at] !== 0xFF; count++) {
        [one, at] = read(bytes, at);
        for (const fill of [0xA5, 0x5A]) {
            attempt(one, fill);
        }
    }
    assert.equal(at, bytes.length - 1);
}
console.log(`wasm: ${declared.length} calls, ${count} cases, all as meant`);
