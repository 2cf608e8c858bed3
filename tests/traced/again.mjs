// Makes the calls of a trace again in WebAssembly, and holds what they return and leave against it:
//     node again.mjs HIVEBASKET.wasm WORDS.json < TRACE
// Status 1 where a call answers otherwise, or where a function of the library is never called.
import { readFileSync, readSync } from 'fs';

const words = JSON.parse(readFileSync(process.argv[3]));
const { instance: { exports: hive } } = await WebAssembly.instantiate(readFileSync(process.argv[2]));
const REPEATED = 1, AGAIN = 2, KEPT = 8, KEPT_LEAST = 64;
const base = (hive.__heap_base.value + 63) & ~63;
hive.memory.grow(3072);
const memory = new Uint8Array(hive.memory.buffer);

const fail = text => {
    console.log(`again: wasm32: ${text}`);
    process.exit(1);
};

// ---- the trace

const block = Buffer.alloc(1 << 20);
let at = 0, end = 0, calls = 0;

// Reads the next block. A pipe that has nothing yet answers EAGAIN.
const fill = () => {
    at = 0;
    for (;;) {
        try {
            end = readSync(0, block, 0, block.length, null);
            return end > 0;
        } catch (e) {
            if (e.code === 'EOF') return (end = 0) > 0;
            if (e.code !== 'EAGAIN') throw e;
        }
    }
};
const byte = () => (at < end || fill() ? block[at++] : -1);
const get = size => {
    let value = 0, worth = 1;
    for (let i = 0; i < size; i++, worth *= 256) value += byte() * worth;
    return value;
};
const getBig = () => {
    let value = 0n;
    for (let i = 0n; i < 64n; i += 8n) value |= BigInt(byte()) << i;
    return value;
};
const take = (to, total) => {
    while (total > 0) {
        if (at >= end && !fill()) fail(`the trace ends inside call ${calls}`);
        const some = Math.min(total, end - at);
        memory.set(block.subarray(at, at + some), to);
        at += some;
        to += some;
        total -= some;
    }
};

// ---- a call

// The bytes between the fields of a record, of which nothing is said.
const between = new Uint8Array(64);
for (const [from, to] of [[13, 16], [26, 32], [42, 48], [49, 52], [60, 64]]) between.fill(1, from, to);
const sum = (from, total, size) => {
    let s = 2166136261 | 0;
    for (let i = 0; i < total; i++) if (size !== 64 || !between[i & 63]) s = Math.imul(s ^ memory[from + i], 16777619);
    return s >>> 0;
};
const same = (what, wanted, found) => {
    if (wanted !== found) fail(`call ${calls}, ${what}: ${found}, wanted ${wanted}`);
};

const kept = [];
let next = 0;

// Puts the contents of a part into memory.
const takePart = (to, total) => {
    const how = get(1);
    if (how === AGAIN) {
        memory.set(kept[get(1)], to);
    } else if (how === REPEATED) {
        take(to, 8);
        for (let n = 8; n < total; n *= 2) memory.copyWithin(to + n, to, to + Math.min(n, total - n));
    } else {
        take(to, total);
        if (total >= KEPT_LEAST) {
            kept[next] = memory.slice(to, to + total);
            next = (next + 1) % KEPT;
        }
    }
};

const of = words.map(() => 0);
for (let kind; (kind = byte()) >= 0;) {
    const [name, parts] = words[kind] ?? fail(`call ${calls + 1} is of no function`);
    calls++;
    of[kind]++;
    let used = base;
    const passed = [], left = [];
    for (const [isPart, written, size] of parts) {
        if (!isPart) {
            const value = getBig();
            passed.push(size === 8 ? value : Number(BigInt.asIntN(32, value)));
            continue;
        }
        const total = get(8) * size;
        takePart(used, total);
        passed.push(used);
        if (written) left.push([used, total, size]);
        used += (total + 64) & ~63;
    }
    const number = hive[name](...passed) >>> 0;
    same(name, get(4), number);
    for (const [from, total, size] of left) same(`${name}, what it left`, get(4), sum(from, total, size));
}
if (memory.buffer.byteLength === 0) fail('the memory moved');
of.forEach((n, kind) => n || fail(`${words[kind][0]} is never called`));
console.log(`again: wasm32: ${calls} calls of all ${words.length} functions: the same`);
