// The time of from_json and to_json beside that of node's JSON.parse and JSON.stringify on the same lists, in one run:
// `node rust/json/speed.js`, after `tools/archive`. Nanoseconds for a call, the best of 45 windows of 8 ms for each side, nine
// in turn in each of five passes over all rows. Prints the tables of docs/SPEED.md.
//
// node's side works on strings that are decoded already and checks no UTF-8; ours takes and gives bytes. So there is a second time
// for node: with the bytes decoded before JSON.parse, or made of the string after JSON.stringify.
'use strict';
const { built, Timer, TIME_FROM_JSON, TIME_TO_JSON } = require('./calls.js');
const { fromJson, toJson } = require('./model.js');

const WINDOW = 8;
const WINDOWS = 9;
const PASSES = 5;

const ASCII = 'nicht gelistet';
const MIXED = [...'Ger\u00e4te\u20ac sind\u{1f600}'];

// A string of 12 characters.
function text(mixed, k) {
    const letters = mixed ? MIXED : ASCII;
    return Array.from({ length: 12 }, (_, i) => letters[(i + k) % letters.length]).join('');
}

// So many values: retains, inserts and deletes in turn.
function values(n, mixed, first) {
    return Array.from({ length: n }, (_, k) => [2 + (k % 17), text(mixed, k), -1 - (k % 2)][(k + first) % 3]);
}

let kept;

// Nanoseconds for one call in one window.
function window(call, argument) {
    let calls = 0;
    let batch = 1;
    const start = performance.now();
    for (;;) {
        for (let k = 0; k < batch; k++) kept = call(argument);
        calls += batch;
        const spent = performance.now() - start;
        if (spent >= WINDOW) return (spent * 1e6) / calls;
        batch = Math.min(batch * 2, 1 << 14);
    }
}

// How many values a list has, and with which kind it begins.
const SIZES = [['1, a number', 1, 0], ['1, a string', 1, 1], ['10', 10, 0], ['100', 100, 0], ['1000', 1000, 0]];

// Strings of 4,000 characters, as they stand in a list: no cells of the mean.
const LONG = {
    ASCII: 'nicht gelistet. ',
    German: 'Ger\u00e4te sperren. ',
    Cyrillic: '\u043d\u0435 \u0443\u043a\u0430\u0437\u0430\u043d\u043e\u0435 ',
    Japanese: '\u8a31\u53ef\u3055\u308c\u3066\u3044\u306a\u3044\u6a5f\u5668',
    'escapes \\n': '\\n',
    'escapes \\u00e4': '\\u00e4',
};

function long(part) {
    return `["${part.repeat(4000 / JSON.parse(`"${part}"`).length)}"]`;
}

// A row for each call.
function both(size, kind, list, cell) {
    const bytes = Buffer.from(list);
    const value = JSON.parse(list);
    const { want, ops } = fromJson(bytes);
    const written = Buffer.byteLength(toJson(ops));
    const best = () => ({ size, kind, cell, bytes: bytes.length, ours: Infinity, theirs: Infinity, decoded: Infinity });
    return [
        {
            ...best(),
            call: 'from_json',
            time: [TIME_FROM_JSON, bytes, want.length],
            plain: [JSON.parse, list],
            whole: [(b) => JSON.parse(b.toString()), bytes],
        },
        {
            ...best(),
            call: 'to_json',
            time: [TIME_TO_JSON, want, written],
            plain: [JSON.stringify, value],
            whole: [(v) => Buffer.from(JSON.stringify(v)), value],
        },
    ];
}

function rows() {
    const kinds = ['ASCII', 'mixed'];
    const cells = kinds.flatMap((kind) => SIZES.flatMap(([size, n, first]) => {
        return both(size, kind, JSON.stringify(values(n, kind === 'mixed', first)), true);
    }));
    return [...cells, ...Object.keys(LONG).flatMap((kind) => both('one string', kind, long(LONG[kind]), false))];
}

function show(ns) {
    return ns < 100 ? ns.toFixed(1) : ns.toFixed(0);
}

async function main() {
    const timer = new Timer(built());
    const all = rows();
    for (let pass = 0; pass < PASSES; pass++) {
        for (const row of all) {
            for (let k = 0; k < WINDOWS; k++) {
                const [call, bytes, size] = row.time;
                const { answer, ns } = await timer.time(call, WINDOW, bytes);
                if (answer !== size) throw new Error(`${row.call} answers ${answer} instead of ${size}`);
                row.ours = Math.min(row.ours, ns);
                row.theirs = Math.min(row.theirs, window(...row.plain));
                row.decoded = Math.min(row.decoded, window(...row.whole));
            }
        }
    }
    timer.end();
    for (const call of ['from_json', 'to_json']) {
        const theirs = call === 'from_json' ? 'JSON.parse' : 'JSON.stringify';
        console.log(`| ${call}: values | bytes | ours, ns | ${theirs}, ns | ratio | with the bytes, ns | ratio |`);
        console.log('|---|---|---|---|---|---|---|');
        for (const row of all.filter((r) => r.call === call)) {
            const times = `${show(row.ours)} | ${show(row.theirs)} | ${(row.ours / row.theirs).toFixed(2)}`;
            const size = `${row.size}, ${row.kind} | ${row.bytes}`;
            console.log(`| ${size} | ${times} | ${show(row.decoded)} | ${(row.ours / row.decoded).toFixed(2)} |`);
        }
        console.log('');
    }
    const cells = all.filter((row) => row.cell);
    const mean = (of) => Math.exp(cells.reduce((sum, row) => sum + Math.log(row.ours / row[of]), 0) / cells.length);
    const over = cells.filter((row) => row.ours >= row.theirs).length;
    console.log(`${cells.length} cells, ${over} of them not below 1; geometric mean of the ratios ${mean('theirs').toFixed(3)}, ` +
        `with the bytes ${mean('decoded').toFixed(3)}`);
}

main();
