// Lists for compare.js, whole and damaged, made from a seed; and records. A list is an array of parts, each a string or bytes, that
// `bytesOf` puts end to end.
'use strict';
const { MAX_OPS, MAX_SIZE, RETAIN, INSERT, DELETE, chars } = require('./model.js');

class Random {
    constructor(seed) {
        this.state = seed >>> 0;
    }

    next() {
        this.state = (this.state + 0x6d2b79f5) >>> 0;
        let t = this.state;
        t = Math.imul(t ^ (t >>> 15), t | 1);
        t ^= t + Math.imul(t ^ (t >>> 7), t | 61);
        return (t ^ (t >>> 14)) >>> 0;
    }

    below(n) {
        return Math.floor((this.next() / 2 ** 32) * n);
    }

    among(from, to) {
        return from + this.below(to - from + 1);
    }

    once(n) {
        return this.below(n) === 0;
    }

    pick(from) {
        return from[this.below(from.length)];
    }
}

function bytesOf(parts) {
    return Buffer.concat(parts.map((part) => (typeof part === 'string' ? Buffer.from(part) : part)));
}

// ---- texts

const LETTERS = 'abcdefghijklmnopqrstuvwxyz ABCDEFGHIJKLMNOPQRSTUVWXYZ 0123456789 !#$%&\'()*+,-./:;<=>?@[]^_`{|}~\x7f';
// The first and the last characters of each length, and some that other readers treat in a way of their own.
const EDGES = [' ', '!', '#', '[', ']', '~', '\x7f', '\x80', '\x85', '\xa0', '\u07ff', '\u0800', '\u2028', '\u2029', '\ud7ff',
    '\ue000', '\ufeff', '\ufffd', '\uffff', '\u{10000}', '\u{10ffff}'];

function letters(r, n) {
    let text = '';
    while (text.length < n) text += r.pick(LETTERS);
    return text;
}

// A character that takes so many bytes.
function character(r, bytes) {
    if (bytes === 1) return r.pick(LETTERS);
    if (bytes === 2) return String.fromCodePoint(r.among(0x80, 0x7ff));
    if (bytes === 4) return String.fromCodePoint(r.among(0x10000, 0x10ffff));
    const code = r.among(0x800, 0xf7ff);
    return String.fromCodePoint(code < 0xd800 ? code : code + 0x800);
}

// \u and four digits, each of either case.
function unit(r, code) {
    const digits = code.toString(16).padStart(4, '0');
    return '\\u' + [...digits].map((d) => (r.once(2) ? d : d.toUpperCase())).join('');
}

function pair(r, code) {
    return unit(r, 0xd800 + ((code - 0x10000) >> 10)) + unit(r, 0xdc00 + ((code - 0x10000) & 0x3ff));
}

// What may stand in a string: one character or several, as they are or escaped.
function piece(r) {
    switch (r.below(10)) {
        case 0:
            return letters(r, r.among(1, 40));
        case 1:
            return letters(r, r.among(1, 3));
        case 2:
            return r.pick(EDGES);
        case 3:
            return '\\' + r.pick('"\\/bfnrt');
        case 4:
            return unit(r, r.below(0x100));
        case 5: {
            const code = r.below(0xf800);
            return unit(r, code < 0xd800 ? code : code + 0x800);
        }
        case 6:
            return pair(r, r.among(0x10000, 0x10ffff));
        default:
            return character(r, r.among(2, 4));
    }
}

function inside(r, most) {
    let text = '';
    for (let n = r.below(most + 1); n > 0; n--) text += piece(r);
    return text;
}

// ---- values

const FAR = ['32767', '32768', '32769', '65535', '65536', '65537', '131072', '4294967295', '4294967296', '4294967297',
    '9007199254740991', '9007199254740992', '9007199254740993', '9223372036854775807', '9223372036854775808',
    '18446744073709551615', '18446744073709551616', '18446744073709551617', '18446744073709584384', '36893488147419103232'];

function digits(r, n) {
    let number = String(r.among(1, 9));
    while (number.length < n) number += r.pick(['0', '0', '9', String(r.below(10))]);
    return number;
}

function number(r, far) {
    const sign = r.once(2) ? '-' : '';
    if (!far || r.once(2)) return sign + r.among(1, r.pick([9, 9, 99, 400]));
    return sign + r.pick([digits(r, r.among(1, 5)), r.pick(FAR), digits(r, r.among(6, 60))]);
}

function string(r, most) {
    return '"' + inside(r, most) + '"';
}

function value(r, far) {
    return r.once(2) ? number(r, far) : string(r, r.pick([0, 1, 3, 3, 8]));
}

function values(r, n, far) {
    return Array.from({ length: n }, () => value(r, far));
}

// White space between the parts of a list: none at all, here and there, or much.
function spaces(r) {
    const often = r.pick([0, 0, 8, 2]);
    return () => {
        let text = '';
        while (often > 0 && r.once(often)) text += r.pick(' \t\n\r');
        if (often > 0 && r.once(2000)) text += r.pick(' \t\n\r').repeat(r.among(10, 400));
        return text;
    };
}

// A list of these values, with white space at all places that may have it.
function list(r, items) {
    const ws = spaces(r);
    const parts = [ws(), '[', ws()];
    items.forEach((item, k) => {
        if (k > 0) parts.push(ws(), ',', ws());
        parts.push(item);
    });
    parts.push(ws(), ']', ws());
    return parts;
}

// ---- lists that are whole

// About as many operations as a record has at most.
function manyOperations(r) {
    const n = MAX_OPS + r.pick([-30, -1, -1, 0, 0, 0, 1, 1, 1, 30, 76]);
    const cycle = r.pick(['ri', 'rid', 'rd', 'idr']);
    const items = [];
    const odd = r.pick([0, 0, 0, 30, 300]);
    for (let k = 0; k < n; k++) {
        const kind = cycle[k % cycle.length];
        items.push(kind === 'r' ? `${r.among(1, 20)}` : kind === 'd' ? `-${r.among(1, 9)}` : `"${letters(r, 1)}${inside(r, 1)}"`);
        // a value that joins the one before it, or changes nothing
        if (odd > 0 && r.once(odd)) items.push(kind === 'r' ? '1' : kind === 'd' ? '-1' : '""');
    }
    return list(r, items);
}

// Strings whose bytes come to about as many as a record has at most.
function muchText(r) {
    const total = MAX_SIZE + r.pick([-2, -1, 0, 0, 0, 1, 1, 2, 500]);
    const make = r.pick([
        () => [letters(r, 1), 1],
        () => [letters(r, 64), 64],
        () => [character(r, 2), 2],
        () => [character(r, 3), 3],
        () => [character(r, 4), 4],
        () => [unit(r, r.below(0x20)), 1],
        () => [r.pick(['\\"', '\\\\', '\\/', '\\b', '\\f', '\\n', '\\r', '\\t']), 1],
        () => [pair(r, r.among(0x10000, 0x10ffff)), 4],
        () => {
            const size = r.among(1, 4);
            return [character(r, size), size];
        },
    ]);
    const cuts = Array.from({ length: r.pick([0, 0, 1, 2, 20]) }, () => r.below(total)).sort((x, y) => x - y);
    const between = r.pick(['', '1', '-1', '2,-1', '""']);
    const items = [];
    let text = '';
    const close = () => {
        items.push(`"${text}"`);
        if (between !== '') items.push(...between.split(','));
        text = '';
    };
    for (let have = 0; have < total; ) {
        let [more, size] = make();
        if (have + size > total) [more, size] = ['x', 1];
        text += more;
        have += size;
        if (cuts.length > 0 && have >= cuts[0]) {
            cuts.shift();
            close();
        }
    }
    close();
    return list(r, items);
}

// Base, target or both at about 32,768.
function longLengths(r) {
    const total = MAX_SIZE + r.pick([-1, 0, 0, 0, 1, 1, 2, 32768]);
    const part = r.pick([1, 7, 500, r.among(1, 32000)]);
    const some = () => {
        let text = '';
        for (let k = 0; k < part % 700; k++) text += r.pick(['x', character(r, r.among(1, 4)), unit(r, r.below(0x80))]);
        return `"${text}"`;
    };
    const word = some();
    const rest = total - chars(JSON.parse(word));
    switch (r.below(7)) {
        case 0:
            return list(r, [`${total}`]);
        case 1:
            return list(r, [`-${total}`]);
        case 2:
            return list(r, [`${part}`, `-${total - part}`, '""', word]);
        case 3:
            return list(r, [`${rest}`, word]);
        case 4:
            return list(r, [word, `-${total}`]);
        case 5: {
            const items = [];
            for (let left = total; left > 0; ) {
                const n = Math.min(left, r.among(1, part));
                items.push(`${r.once(3) ? '-' : ''}${n}`);
                left -= n;
                if (items.length > 3000) break;
            }
            return list(r, items);
        }
        default:
            return list(r, [`${r.among(1, MAX_SIZE)}`, r.pick(FAR), ...values(r, r.below(3), true), r.pick(FAR)]);
    }
}

// A number of hundreds or thousands of digits.
function longNumber(r) {
    const items = values(r, r.below(4), false);
    items.splice(r.below(items.length + 1), 0, (r.once(2) ? '-' : '') + digits(r, r.pick([61, 100, 308, 309, 310, 1000, 20000])));
    return list(r, items);
}

const WHOLE = {
    'short lists': [60, (r) => list(r, values(r, r.below(8), r.once(5)))],
    'lists of up to 150 values': [8, (r) => list(r, values(r, r.below(151), false))],
    'about 128 bytes': [6, (r) => {
        const parts = list(r, values(r, r.below(12), false));
        const size = bytesOf(parts).length;
        return [...parts, ' '.repeat(Math.max(0, 128 + r.among(-2, 2) - size))];
    }],
    'one string': [10, (r) => list(r, [string(r, 30)])],
    'numbers of up to 60 digits': [6, (r) => list(r, Array.from({ length: r.among(1, 5) }, () => number(r, true)))],
    'longer numbers': [0.5, longNumber],
    'about 1,024 operations': [0.7, manyOperations],
    'about 32,768 bytes of text': [0.7, muchText],
    'base or target about 32,768': [3, longLengths],
};

// ---- lists that are damaged

// What a browser, a cable or a person may put where a value belongs.
const NO_NUMBERS = ['0', '-0', '00', '01', '-01', '-00', '+1', '-', '--1', '1.', '.5', '-.5', '1.0', '1.5', '-0.5', '0.0',
    '1e3', '1E3', '1e+3', '1e-3', '-1e0', '0e0', '1.5e2', '1e', '1e+', '1 2', '1-', '- 1', '0x10', '1_000', '1n', 'NaN',
    'Infinity', '-Infinity', '1a', '\uff11', '\u0661'];
const NO_VALUES = ['true', 'false', 'null', 'undefined', 'True', 'nul', 'tru', '{}', '{"a":1}', '{"retain":1}', '[]', '[1]',
    '["a"]', '[[]]', '[1,[2,[3]]]', "'a'", 'a', '"', '""""', '"a" "b"', '"a', 'a"', '', '//', '/**/1', '(1)', '1;', '`a`',
    '"a"1', '1"a"'];
// Bytes that aren't UTF-8, surrogates as bytes among them.
const NO_UTF8 = ['80', 'bf', 'c080', 'c1bf', 'c0a2', 'c3', 'c3c3a4', 'e08080', 'e09fbf', 'e282', 'e2', 'eda080', 'edadbf',
    'edae80', 'edb080', 'edbfbf', 'eda0bdedb880', 'f0808080', 'f08fbfbf', 'f09f98', 'f09f', 'f0', 'f4908080', 'f5808080',
    'f7bfbfbf', 'f888808080', 'fc8480808080', 'fe', 'ff', 'efbb'].map((hex) => Buffer.from(hex, 'hex'));
// Escapes that stand for no character.
const NO_ESCAPES = ['\\ud800', '\\uDBFF', '\\udc00', '\\uDfFf', '\\ud83d\\ud83d', '\\ude00\\ud83d', '\\ud83d\\u0041',
    '\\ud83d\\n', '\\ud83dx', '\\ud83d\\', '\\ud83d\\u', '\\ud83d\\ude0', '\\ud83d \\ude00', '\\ud83d\\uD83D\\ude00',
    '\\ud83d\\ude00\\ude00', '\\u', '\\u1', '\\u12', '\\u123', '\\u12g4', '\\u 123', '\\u+123', '\\u{41}', '\\U0041',
    '\\x41', '\\a', '\\v', '\\0', "\\'", '\\ ', '\\\n', '\\B', '\\N', '\\ue', '\\uD83D\\UDE00', '\\uDC00\\uDC00'];

const NO_SPACES = ['\x0b', '\x0c', '\x00', '\x85', '\xa0', '\u2028', '\u2029', '\u3000', '\ufeff', '\x1f', '\\n', '\\t'];

function put(bytes, at, more, dropped = 0) {
    return Buffer.concat([bytes.subarray(0, at), more, bytes.subarray(at + dropped)]);
}

const SIGNS = Buffer.from('[]{},:-+.eE"\\/u0123456789abcdefntr \t\n\r\0\x1f\x7f', 'latin1');

function byte(r) {
    return r.once(2) ? Buffer.of(r.pick(SIGNS)) : Buffer.of(r.below(256));
}

// A whole list, short as a rule, and a place in it.
function whole(r) {
    const long = () => r.pick([manyOperations, muchText, longLengths])(r);
    const bytes = bytesOf(r.once(150) ? long() : list(r, values(r, r.among(0, 6), r.once(4))));
    return { bytes, at: r.below(bytes.length) };
}

// A short list in which one value is another.
function withValue(r, item) {
    const items = values(r, r.among(0, 4), false);
    items.splice(r.below(items.length + 1), 0, item);
    return list(r, items);
}

function inString(r, more) {
    return withValue(r, bytesOf(['"', inside(r, 3), more, inside(r, 3), '"']));
}

// A list in which something stands before, behind or between its parts.
function amid(r, more) {
    const parts = list(r, values(r, r.below(4), false));
    parts.splice(r.below(parts.length + 1), 0, more);
    return parts;
}

function edited(edit) {
    return (r) => {
        let { bytes, at } = whole(r);
        bytes = edit(r, bytes, at);
        if (r.once(4) && bytes.length > 0) bytes = edit(r, bytes, r.below(bytes.length));
        return [bytes];
    };
}

const DAMAGED = {
    'a byte changed': [10, edited((r, bytes, at) => put(bytes, at, byte(r), 1))],
    'a byte dropped': [10, edited((r, bytes, at) => put(bytes, at, Buffer.alloc(0), 1))],
    'a byte doubled': [10, edited((r, bytes, at) => put(bytes, at, bytes.subarray(at, at + 1)))],
    'two bytes exchanged': [10, edited((r, bytes, at) => {
        const to = r.once(2) ? Math.min(at + 1, bytes.length - 1) : r.below(bytes.length);
        const copy = Buffer.from(bytes);
        [copy[at], copy[to]] = [copy[to], copy[at]];
        return copy;
    })],
    'a bit turned': [4, edited((r, bytes, at) => put(bytes, at, Buffer.of(bytes[at] ^ (1 << r.below(8))), 1))],
    'cut off': [8, edited((r, bytes, at) => bytes.subarray(0, at))],
    'cut off in front': [3, edited((r, bytes, at) => bytes.subarray(at))],
    'bytes put in': [10, edited((r, bytes, at) => {
        const more = Array.from({ length: r.among(1, 3) }, () => byte(r));
        return put(bytes, at, Buffer.concat(more));
    })],
    'ill-formed UTF-8': [8, (r) => (r.once(4) ? amid(r, r.pick(NO_UTF8)) : inString(r, r.pick(NO_UTF8)))],
    'escapes of no character': [8, (r) => inString(r, r.pick(NO_ESCAPES))],
    'codes below 20 as they are': [2, (r) => inString(r, String.fromCharCode(r.below(0x20)))],
    'no such number': [8, (r) => withValue(r, r.pick(NO_NUMBERS))],
    'no such value': [8, (r) => withValue(r, r.pick(NO_VALUES))],
    'far too deep': [0.1, (r) => withValue(r, '['.repeat(5000) + ']'.repeat(5000))],
    'commas and brackets': [6, (r) => amid(r, r.pick([',', ',,', '[', ']', '][', '],[', '{', '}', ':', ';']))],
    'two lists, or none': [3, (r) => r.pick([
        () => [...list(r, values(r, r.below(3), false)), r.pick(['', ' ', ',', '\n']), ...list(r, values(r, r.below(3), false))],
        () => [r.pick(['', ' ', '\n', '\0']), r.pick(['', value(r, true), '0', 'null', '{}', '{"a":[1]}', 'true', '""'])],
    ])()],
    'other white space': [3, (r) => amid(r, r.pick(NO_SPACES))],
    'a byte order mark': [2, (r) => ['\ufeff', ...list(r, values(r, r.below(4), false))]],
};

// One of the kinds, each as often as its share says.
function chosen(r, kinds) {
    const names = Object.keys(kinds);
    const sum = names.reduce((all, name) => all + kinds[name][0], 0);
    let at = (r.next() / 2 ** 32) * sum;
    const name = names.find((k) => (at -= kinds[k][0]) < 0) || names[0];
    return { name, made: kinds[name][1](r) };
}

// ---- every list of a kind

function* inBrackets(signs, most) {
    for (let n = 0; n <= most; n++) {
        for (let k = 0; k < signs.length ** n; k++) {
            let text = '';
            for (let left = k, i = 0; i < n; i++, left = Math.floor(left / signs.length)) text += signs[left % signs.length];
            yield Buffer.from(`[${text}]`, 'latin1');
        }
    }
}

// What stands before and behind a place in a list; a letter \x80 to \xff is one byte.
const PLACES = [['', ''], ['', '[1]'], ['[', ']'], ['[1', ']'], ['[-', ']'], ['[-', '1]'], ['[1', ',1]'], ['[1,', '1]'],
    ['["a"', ']'], ['["', '"]'], ['["abcdefgh', 'abcdefgh"]'], ['["\\', '"]'], ['["\\u004', '"]'], ['["\\u', '041"]'],
    ['["\\ud83d', 'ude00"]'], ['["\\ud83d\\', 'de00"]'], ['["\xc3', '"]'], ['["\xe0', '\x80"]'], ['["\xe2', '\x80"]'],
    ['["\xed', '\x80"]'], ['["\xf0', '\x80\x80"]'], ['["\xf1\x80', '\x80"]'], ['["\xf4', '\x80\x80"]'], ['[1]', ''],
    ['[1', '']];

function* everyByte(places) {
    for (const place of places) {
        const [before, behind] = place.map((part) => Buffer.from(part, 'latin1'));
        for (let b = 0; b < 256; b++) yield bytesOf([before, Buffer.of(b), behind]);
    }
}

// Every character, so many to a list, as `form` writes it.
function* everyCharacter(from, many, form) {
    for (let code = from; code <= 0x10ffff; ) {
        let text = '';
        for (let n = 0; n < many && code <= 0x10ffff; code++) {
            if (code >= 0xd800 && code <= 0xdfff) continue;
            text += form(code);
            n += 1;
        }
        yield Buffer.from(`["${text}"]`);
    }
}

function* everyUnit(r) {
    for (let code = 0; code <= 0xffff; code++) yield Buffer.from(`["${unit(r, code)}"]`);
}

// A high surrogate, or what is next to one, before a low one, or what is next to one.
function* everyMeeting(r) {
    const units = [0xd7ff, 0xd800, 0xd801, 0xdbfe, 0xdbff, 0xdc00, 0xdc01, 0xdffe, 0xdfff, 0xe000, 0x41, 0x22];
    for (const x of units) {
        for (const y of units) for (const z of units) yield Buffer.from(`["${unit(r, x)}${unit(r, y)}${unit(r, z)}"]`);
    }
}

function every(r) {
    const raw = (code) => (code === 0x22 || code === 0x5c ? '\\' : '') + (code < 0x20 ? unit(r, code) : String.fromCodePoint(code));
    return {
        'at most four of 15 signs in brackets': inBrackets('[],-01.e"\\u {\na', 4),
        'every byte at a place': everyByte(PLACES),
        'every \\uXXXX': everyUnit(r),
        'surrogates that meet': everyMeeting(r),
        'every character as it is': everyCharacter(0, 61, raw),
        'every surrogate pair': everyCharacter(0x10000, 61, (code) => pair(r, code)),
    };
}

// ---- records, as operations

const CONTROLS = Array.from({ length: 0x20 }, (_, k) => String.fromCharCode(k));

// A text of just so many bytes.
function textOf(r, bytes, make) {
    let text = '';
    while (bytes > 0) {
        const c = make();
        const size = Buffer.byteLength(c);
        text += size <= bytes ? c : 'x';
        bytes -= size <= bytes ? size : 1;
    }
    return text;
}

function characters(r) {
    return r.pick([
        () => character(r, 1),
        () => character(r, r.among(1, 4)),
        () => r.pick(CONTROLS),
        () => r.pick(['"', '\\', '/', 'u', ...CONTROLS, 'ä', '€', '\u2028']),
        () => (r.once(9) ? r.pick(['"', '\\', '\n', '\t', '\0', '\x1f']) : character(r, 1)),
        () => r.pick(EDGES),
        () => character(r, 4),
    ]);
}

// The kinds that may stand behind a kind, and at first.
const NEXT = { 0: [RETAIN, INSERT, DELETE], [RETAIN]: [INSERT, DELETE], [INSERT]: [RETAIN, DELETE], [DELETE]: [RETAIN] };

// So many operations, whose counts and texts stay within what is left of each limit. Counts and texts are short where there are
// many, and all that is left goes to the last ones where `full`.
function operations(r, n, full) {
    let [base, target, text] = [MAX_SIZE, MAX_SIZE, MAX_SIZE];
    const make = characters(r);
    const most = n > 100 ? r.pick([5, 15]) : r.pick([9, 60, 2000]);
    const ops = [];
    const kinds = r.pick([[RETAIN, INSERT], [RETAIN, INSERT, DELETE], [RETAIN, DELETE], null]);
    for (let k = 0; k < n; k++) {
        const last = k > 0 ? ops[k - 1].kind : 0;
        const kind = kinds ? kinds[k % kinds.length] : r.pick(NEXT[last]);
        const end = full && k >= n - 3;
        if (kind === INSERT) {
            const room = Math.min(text, target);
            const made = textOf(r, Math.min(room, end ? room : r.among(1, most)), make);
            if (made === '') break;
            ops.push({ kind, text: made });
            text -= Buffer.byteLength(made);
            target -= chars(made);
        } else {
            const room = kind === RETAIN ? Math.min(base, target) : base;
            const count = Math.min(room, end ? room - r.below(2) : r.among(1, most));
            if (count <= 0) break;
            ops.push({ kind, n: BigInt(count) });
            base -= count;
            if (kind === RETAIN) target -= count;
        }
    }
    return ops;
}

const RECORDS = {
    'up to 8 operations': [100, (r) => operations(r, r.below(9), false)],
    'up to 150 operations': [10, (r) => operations(r, r.below(151), false)],
    'to a limit of length or text': [3, (r) => operations(r, r.among(1, 40), true)],
    'to 1,024 operations': [1, (r) => operations(r, MAX_OPS - r.pick([0, 0, 1]), r.once(2))],
};

module.exports = { Random, bytesOf, WHOLE, DAMAGED, RECORDS, chosen, every };
