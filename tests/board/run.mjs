// Runs a program for wasm32 that was built with tests/board/wasm.c.
//   node run.mjs PROGRAM [WORD..]
import fs from 'node:fs';

const program = fs.readFileSync(process.argv[2]);
let memory;
const bytes = (place, count) => new Uint8Array(memory.buffer, place, count);

const node = {
    // Writes the words of the command line, each ended by a byte 0, and their places.
    words(to, at) {
        const words = ['program', ...process.argv.slice(3)];
        const places = new Uint32Array(memory.buffer, at, words.length);
        words.forEach((word, i) => {
            places[i] = to;
            bytes(to, word.length + 1).set(Buffer.from(word + '\0'));
            to += word.length + 1;
        });
        return words.length;
    },
    read(file, place, count) {
        try {
            return fs.readSync(file, bytes(place, count));
        } catch {
            return -1;
        }
    },
    write(file, place, count) {
        return fs.writeSync(file, bytes(place, count));
    },
    exit(status) {
        process.exit(status);
    },
};

const { instance } = await WebAssembly.instantiate(program, { node });
memory = instance.exports.memory;
instance.exports.start();
