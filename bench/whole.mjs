// Measures three calls on a whole file in WebAssembly, as bench/whole.c does natively:
//     node whole.mjs HIVEBASKET.wasm FILE [REPETITIONS]
// prints the shortest times of the check, the track and one column (ENL of the B lines), in ms.
import { readFileSync } from 'fs';

const { instance: { exports: hive } } = await WebAssembly.instantiate(readFileSync(process.argv[2]));
const bytes = readFileSync(process.argv[3]);
const repetitions = Number(process.argv[4] ?? 15);
const LINES = 1000000, ANSWER = 16;

let used = (hive.__heap_base.value + 63) & ~63;
const room = size => {
    const at = used;
    used += (size + 63) & ~63;
    return at;
};
const file = room(bytes.length), table = room(4 * LINES), records = room(64 * LINES), numbers = room(8 * LINES), answer = room(8 * ANSWER), code = room(3);
hive.memory.grow(Math.ceil(used / 65536));
const memory = new Uint8Array(hive.memory.buffer);
memory.set(bytes, file);
memory.set([...'ENL'].map(c => c.charCodeAt(0)), code);

const length = BigInt(bytes.length), lines = BigInt(LINES), answers = BigInt(ANSWER);
const calls = [
    () => hive.hive_check(file, length, table, lines, answer, answers),
    () => hive.hive_track(file, length, records, lines, answer, answers),
    () => hive.hive_columns(file, length, 'B'.charCodeAt(0), code, 3n, numbers, lines, answer, answers),
];
const least = calls.map(() => Infinity);
for (let turn = 0; turn < repetitions; turn++) {
    calls.forEach((call, i) => {
        const began = performance.now();
        if (call()) process.exit(1);
        least[i] = Math.min(least[i], performance.now() - began);
    });
}
console.log(least.map(ms => ms.toFixed(2)).join(' '));
