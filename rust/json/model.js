// What document 02, M-100, asks of from_json and to_json, by other means than the library: node's JSON.parse reads the list, and
// the builders of document 01 are written anew.
'use strict';

const MAX_OPS = 1024;
const MAX_SIZE = 32768;
const RETAIN = 1;
const INSERT = 2;
const DELETE = 3;

// What JSON.parse takes and M-100 refuses: what holds of the value, of its elements, or of its numbers as they stand in the source.
const RULES = {
    'the value is no array': ({ value }) => !Array.isArray(value),
    'an array or an object inside': ({ elements }) => elements.some((v) => typeof v === 'object' && v !== null),
    'true, false or null inside': ({ elements }) => elements.some((v) => v === true || v === false || v === null),
    'a 0 or -0': ({ numbers }) => numbers.some((s) => s === '0' || s === '-0'),
    'a fraction': ({ numbers }) => numbers.some((s) => s.includes('.')),
    'an exponent': ({ numbers }) => numbers.some((s) => /[eE]/.test(s)),
    'a lone surrogate': ({ elements }) => elements.some((v) => typeof v === 'string' && !v.isWellFormed()),
};

// The numbers of a text that JSON.parse takes, as they stand there; strings are passed over.
function numbersOf(source) {
    return (source.match(/"(?:[^"\\]|\\.)*"|-?[0-9][0-9.eE+-]*/g) || []).filter((s) => s[0] !== '"');
}

const decoder = new TextDecoder('utf-8', { fatal: true, ignoreBOM: true });

// The list's values, numbers as BigInt from the source; or why it is refused with 11, and by which rules.
function valuesOf(bytes) {
    let source;
    let value;
    try {
        source = decoder.decode(bytes);
    } catch (e) {
        return { why: 'no UTF-8' };
    }
    try {
        value = JSON.parse(source);
    } catch (e) {
        if (!(e instanceof SyntaxError)) throw e;
        return { why: 'JSON.parse' };
    }
    const elements = Array.isArray(value) ? value : [];
    const numbers = Array.isArray(value) ? numbersOf(source) : [];
    const rules = Object.keys(RULES).filter((rule) => RULES[rule]({ value, elements, numbers }));
    if (rules.length > 0) return { why: 'a rule', rules };
    // Without nesting the numbers in the source are those of the value, one for one.
    const parsed = elements.filter((v) => typeof v === 'number');
    if (parsed.length !== numbers.length || parsed.some((v, k) => v !== Number(numbers[k]))) {
        throw new Error(`the numbers of ${source} were found in another form`);
    }
    let k = 0;
    return { values: elements.map((v) => (typeof v === 'string' ? v : BigInt(numbers[k++]))) };
}

// "Retain after retain and delete after delete add up. An insert is joined to an insert that stands last, or that stands just
// before a last delete; after a last delete with no insert before it, it is put before that delete. Anything else is appended."
function build(values) {
    const ops = [];
    for (const v of values) {
        const last = ops[ops.length - 1] || {};
        const before = ops[ops.length - 2] || {};
        if (typeof v !== 'string') {
            const kind = v > 0n ? RETAIN : DELETE;
            const n = v > 0n ? v : -v;
            if (last.kind === kind) last.n += n;
            else ops.push({ kind, n });
        } else if (v !== '') {
            if (last.kind === INSERT) last.text += v;
            else if (last.kind === DELETE && before.kind === INSERT) before.text += v;
            else if (last.kind === DELETE) ops.splice(ops.length - 1, 0, { kind: INSERT, text: v });
            else ops.push({ kind: INSERT, text: v });
        }
    }
    return ops;
}

// A string's characters; its surrogates are in pairs.
function chars(text) {
    let n = 0;
    for (const _ of text) n += 1;
    return n;
}

function sizesOf(ops) {
    const sizes = { ops: ops.length, text: 0, base: 0n, target: 0n };
    for (const op of ops) {
        if (op.kind === INSERT) {
            sizes.text += Buffer.byteLength(op.text);
            sizes.target += BigInt(chars(op.text));
        } else {
            sizes.base += op.n;
            if (op.kind === RETAIN) sizes.target += op.n;
        }
    }
    return sizes;
}

// The record, or 9 where it would pass a limit.
function record(ops) {
    const { text, base, target } = sizesOf(ops);
    if (ops.length > MAX_OPS || text > MAX_SIZE || base > MAX_SIZE || target > MAX_SIZE) return 9;
    const bytes = Buffer.alloc(8 + 3 * ops.length + text);
    [ops.length, text, Number(base), Number(target)].forEach((size, k) => bytes.writeUInt16LE(size, 2 * k));
    let at = 8 + 3 * ops.length;
    ops.forEach((op, k) => {
        const count = op.kind === INSERT ? bytes.write(op.text, at) : Number(op.n);
        if (op.kind === INSERT) at += count;
        bytes[8 + k] = op.kind;
        bytes.writeUInt16LE(count, 8 + ops.length + 2 * k);
    });
    return bytes;
}

// What from_json gives where there is room: the record, or a refusal's number; and what the list was refused for.
function fromJson(bytes) {
    const { values, why, rules } = valuesOf(bytes);
    if (!values) return { want: 11, why, rules: rules || [] };
    const ops = build(values);
    return { want: record(ops), ops };
}

// "without white space, escaping only the quotation mark and the backslash, by a backslash before each, and codes below 20
// hexadecimal, by \u00 and two small hexadecimal digits"
function toJson(ops) {
    const escaped = (c) => (c < ' ' ? '\\u00' + c.charCodeAt(0).toString(16).padStart(2, '0') : '\\' + c);
    const values = ops.map((op) => {
        if (op.kind === INSERT) return '"' + op.text.replace(/["\\\0-\x1f]/g, escaped) + '"';
        return (op.kind === DELETE ? '-' : '') + op.n;
    });
    return '[' + values.join(',') + ']';
}

// The values of which build makes just these operations.
function plain(ops) {
    return ops.map((op) => (op.kind === INSERT ? op.text : op.kind === DELETE ? -Number(op.n) : Number(op.n)));
}

module.exports = { MAX_OPS, MAX_SIZE, RETAIN, INSERT, DELETE, RULES, fromJson, toJson, record, sizesOf, plain, chars };
