// The library's two calls on lists, asked of the program json_calls (rust/src/bin/json_calls.rs), which is built first.
'use strict';
const path = require('path');
const { execFileSync, spawnSync, spawn } = require('child_process');

const FROM_JSON = 1;
const TO_JSON = 2;
const TIME_FROM_JSON = 3;
const TIME_TO_JSON = 4;

// Builds the program; where it stands.
function built() {
    const rust = path.join(__dirname, '..');
    const target = path.join(rust, '..', 'target', 'rust');
    const args = ['build', '--quiet', '--release', '--frozen', '--bin', 'json_calls', '--target-dir', target];
    execFileSync('cargo', args, { cwd: rust, stdio: 'inherit' });
    return path.join(target, 'release', 'json_calls');
}

function request(call, room, bytes) {
    const head = Buffer.alloc(9);
    head[0] = call;
    head.writeUInt32LE(room, 1);
    head.writeUInt32LE(bytes.length, 5);
    return [head, bytes];
}

// The number that came back; a refusal is below 0.
function answer(bytes, at) {
    const n = bytes.readUInt32LE(at);
    return n >= 2 ** 31 ? -(n - 2 ** 31) : n;
}

// Gathers calls, and asks many at once. `then` gets a call's answer and its whole output.
class Calls {
    constructor(program) {
        this.program = program;
        this.asked = 0;
        this.clear();
    }

    clear() {
        this.parts = [];
        this.waiting = [];
        this.size = 0;
    }

    ask(call, room, bytes, then) {
        this.parts.push(...request(call, room, bytes));
        this.waiting.push({ room, then });
        this.size += room + bytes.length;
        this.asked += 1;
        if (this.size > 2 ** 25 || this.waiting.length > 50000) this.flush();
    }

    flush() {
        const { parts, waiting } = this;
        this.clear();
        const options = { input: Buffer.concat(parts), maxBuffer: 2 ** 30, stdio: ['pipe', 'pipe', 'inherit'] };
        const ran = spawnSync(this.program, options);
        if (ran.error || ran.status !== 0) throw ran.error || new Error(`json_calls ended with ${ran.status}, ${ran.signal}`);
        let at = 0;
        for (const { room, then } of waiting) {
            if (ran.stdout.readUInt32LE(at + 4) !== room) throw new Error('an output has another length than its room');
            then(answer(ran.stdout, at), ran.stdout.subarray(at + 8, at + 8 + room));
            at += 8 + room;
        }
        if (at !== ran.stdout.length) throw new Error('there are bytes behind the last answer');
    }
}

// Asks one call after another, each when the one before was answered.
class Timer {
    constructor(program) {
        this.child = spawn(program, { stdio: ['pipe', 'pipe', 'inherit'] });
        this.got = Buffer.alloc(0);
        this.child.stdout.on('data', (bytes) => {
            this.got = Buffer.concat([this.got, bytes]);
            if (this.got.length >= 16) this.wake();
        });
    }

    // The answer of the call, and the nanoseconds that it took in a window of so many milliseconds.
    async time(call, window, bytes) {
        const ready = new Promise((wake) => (this.wake = wake));
        this.child.stdin.write(Buffer.concat(request(call, window, bytes)));
        await ready;
        const found = { answer: answer(this.got, 0), ns: this.got.readDoubleLE(8) };
        this.got = this.got.subarray(16);
        return found;
    }

    end() {
        this.child.stdin.end();
    }
}

module.exports = { built, Calls, Timer, FROM_JSON, TO_JSON, TIME_FROM_JSON, TIME_TO_JSON };
