// from_json and to_json beside node's JSON.parse and JSON.stringify: `node rust/json/compare.js [SEED [LISTS]]`, after
// `tools/archive`. Every list is read by both; model.js says what M-100 makes of what node reads. Answers and all bytes of the
// outputs are compared, with room for all but one byte, for just all, and for more. The same seed makes the same lists.
'use strict';
const { built, Calls, FROM_JSON, TO_JSON } = require('./calls.js');
const { MAX_OPS, MAX_SIZE, RULES, fromJson, toJson, record, sizesOf, plain } = require('./model.js');
const { Random, bytesOf, WHOLE, DAMAGED, RECORDS, chosen, every } = require('./lists.js');

const seed = Number(process.argv[2] || 100);
const total = Number(process.argv[3] || 260000);
const RECORD = 8 + 3 * MAX_OPS + MAX_SIZE;

const random = new Random(seed);
const calls = new Calls(built());
let disagreements = 0;

function disagree(call, name, bytes, room, want, got, out) {
    disagreements += 1;
    if (disagreements > 20) return;
    const shown = (b) => (b.length <= 300 ? b.toString('hex') : `${b.subarray(0, 300).toString('hex')}.. (${b.length} bytes)`);
    const wanted = typeof want === 'number' ? `refused ${want}` : `${want.length} bytes ${shown(want)}`;
    console.log(`DISAGREE ${call}, ${name}, room ${room}: ${shown(bytes)}\n  wanted ${wanted}\n  got ${got}, output ${shown(out)}`);
}

// One call, and what is wanted of it: the bytes, or a refusal's number, which leaves the output as it was.
function ask(call, name, bytes, room, want) {
    calls.ask(call, room, bytes, (got, out) => {
        const wanted = typeof want !== 'number' && want.length > room ? 10 : want;
        const written = typeof wanted === 'number' ? Buffer.alloc(0) : wanted;
        const answer = typeof wanted === 'number' ? -wanted : wanted.length;
        const kept = out.subarray(written.length).every((b) => b === 0xee);
        if (got !== answer || !out.subarray(0, written.length).equals(written) || !kept) {
            disagree(call === FROM_JSON ? 'from_json' : 'to_json', name, bytes, room, wanted, got, out);
        }
    });
}

// The same with one byte too few, with just enough room and with more; a refusal with little room, and at times with much.
function askAll(call, name, bytes, want) {
    if (typeof want !== 'number') {
        for (const room of [want.length - 1, want.length, want.length + random.among(1, 40)]) ask(call, name, bytes, room, want);
    } else {
        ask(call, name, bytes, random.pick([0, 7, 8, random.below(200)]), want);
        if (random.once(30)) ask(call, name, bytes, RECORD, want);
    }
}

const none = () => ({ lists: 0, read: 0, limit: 0, utf8: 0, parse: 0, rule: 0 });
const exhaustive = every(random);
const kinds = new Map([exhaustive, WHOLE, DAMAGED].flatMap(Object.keys).map((name) => [name, none()]));
const rules = Object.fromEntries(Object.keys(RULES).map((rule) => [rule, 0]));
const all = none();
// Lists that were read, and are just at a limit.
const seen = { ops: 0, text: 0, base: 0, target: 0 };

function compareList(name, bytes) {
    const { want, why, rules: met, ops } = fromJson(bytes);
    const how = want === 11 ? { 'no UTF-8': 'utf8', 'JSON.parse': 'parse', 'a rule': 'rule' }[why] : want === 9 ? 'limit' : 'read';
    for (const counts of [all, kinds.get(name)]) {
        counts.lists += 1;
        counts[how] += 1;
    }
    for (const rule of met || []) rules[rule] += 1;
    askAll(FROM_JSON, name, bytes, want);
    if (how === 'read') {
        const sizes = sizesOf(ops);
        for (const size of Object.keys(seen)) seen[size] += Number(sizes[size]) === (size === 'ops' ? MAX_OPS : MAX_SIZE);
        const list = Buffer.from(toJson(ops));
        ask(TO_JSON, name, want, list.length, list);
    }
}

for (const [name, lists] of Object.entries(exhaustive)) for (const bytes of lists) compareList(name, bytes);
const ofEvery = all.lists;
for (let k = 0; k < total; k++) {
    const { name, made } = chosen(random, k % 2 === 0 ? WHOLE : DAMAGED);
    compareList(name, bytesOf(made));
}
calls.flush();
const ofLists = calls.asked;

// Records there and back. JSON.stringify writes five codes in short; apart from these it writes the same list.
const SHORT = { b: '\\u0008', f: '\\u000c', n: '\\u000a', r: '\\u000d', t: '\\u0009' };
const back = { records: 0, same: 0, short: 0, longest: 0, codes: { b: 0, f: 0, n: 0, r: 0, t: 0 } };
const ofRecords = new Map();
for (let k = 0; k < total / 4; k++) {
    const { name, made: ops } = chosen(random, RECORDS);
    ofRecords.set(name, (ofRecords.get(name) || 0) + 1);
    const rec = record(ops);
    if (rec === 9) throw new Error(`a record of ${name} passes a limit`);
    const list = toJson(ops);
    const bytes = Buffer.from(list);
    askAll(TO_JSON, name, rec, bytes);
    ask(FROM_JSON, name, bytes, rec.length, rec);
    back.records += 1;
    back.longest = Math.max(back.longest, bytes.length);
    const theirs = JSON.stringify(plain(ops));
    if (theirs === list) {
        back.same += 1;
    } else {
        back.short += 1;
        const long = theirs.replace(/\\(u....|.)/g, (escape, c) => {
            if (!SHORT[c]) return escape;
            back.codes[c] += 1;
            return SHORT[c];
        });
        if (long !== list) {
            disagreements += 1;
            console.log(`DISAGREE: JSON.stringify writes ${theirs}, and M-100 has ${list}`);
        }
    }
    if (JSON.stringify(JSON.parse(list)) !== theirs) throw new Error(`JSON.parse reads ${list} as another list`);
}
calls.flush();

const n = (x) => x.toLocaleString('en-US');
console.log(`seed ${seed}, node ${process.version}`);
console.log('| lists | all | read | 9 | 11: no UTF-8 | 11: JSON.parse refuses it | 11: by a rule |\n|---|---|---|---|---|---|---|');
for (const [name, k] of [...kinds, ['all', all]]) {
    console.log(`| ${name} | ${n(k.lists)} | ${n(k.read)} | ${n(k.limit)} | ${n(k.utf8)} | ${n(k.parse)} | ${n(k.rule)} |`);
}
console.log(`${n(ofEvery)} of them are every list of a kind, ${n(total)} are random; ${n(ofLists)} calls`);
console.log(`read with just 1,024 operations: ${n(seen.ops)}; with just 32,768 bytes of text ${n(seen.text)}, characters before ` +
    `${n(seen.base)}, characters after ${n(seen.target)}`);
console.log('| what JSON.parse takes and M-100 refuses | lists |\n|---|---|');
for (const [rule, count] of Object.entries(rules)) console.log(`| ${rule} | ${n(count)} |`);
for (const [name, count] of ofRecords) console.log(`records, ${name}: ${n(count)}`);
console.log(`${n(back.records)} records there and back, ${n(calls.asked - ofLists)} calls; longest list: ${n(back.longest)} bytes`);
console.log(`JSON.stringify writes ${n(back.same)} of these lists alike; in ${n(back.short)} it writes codes in short: ` +
    Object.entries(back.codes).map(([c, count]) => `\\${c} ${n(count)}`).join(', '));
console.log(`${n(calls.asked)} calls compared, ${n(disagreements)} disagreements`);
process.exitCode = disagreements === 0 ? 0 : 1;
