//! The speed of every call beside the original's, on the same inputs in one run: nanoseconds for a call, best of several windows.
//! Prints the tables of docs/SPEED.md, and those of docs/SPEED-HISTORY.md that are of the same run.

#[cfg(original)]
extern crate bytecount;
#[cfg(original)]
extern crate operational_transform;

#[cfg(not(original))]
fn main() {
    println!("skipped: the original isn't at {}; name it by OT_RS", env!("OT_RS_LOOKED_FOR"));
}

#[cfg(original)]
fn main() {
    measured::all();
}

#[cfg(original)]
mod measured {
    use operational_transform::{Operation, OperationSeq};
    use std::hint::black_box;
    use std::sync::atomic::{AtomicU64, Ordering};
    use std::time::{Duration, Instant};

    const WINDOWS: usize = 9;
    const WINDOW: Duration = Duration::from_millis(8);

    static KEPT: AtomicU64 = AtomicU64::new(0);

    // Takes a number that a call answers, on either side. black_box would put it on the stack, where the arguments of the next call
    // are put and read: there some processors wait 4 ns at each call, more than num_chars of 64 bytes takes.
    fn keep(answer: usize) {
        KEPT.store(answer as u64, Ordering::Relaxed);
    }

    // Nanoseconds for one call in one window.
    fn window(call: &mut dyn FnMut()) -> f64 {
        let mut calls = 0u64;
        let mut batch = 1u64;
        let start = Instant::now();
        loop {
            for _ in 0..batch {
                call();
            }
            calls += batch;
            let spent = start.elapsed();
            if spent >= WINDOW {
                return spent.as_nanos() as f64 / calls as f64;
            }
            batch = (batch * 2).min(1 << 14);
        }
    }

    // Both sides in turn, so that they meet the same machine; the best window of each.
    fn sides(ours: &mut dyn FnMut(), theirs: &mut dyn FnMut()) -> (f64, f64) {
        let (mut x, mut y) = (f64::MAX, f64::MAX);
        for _ in 0..WINDOWS {
            x = x.min(window(ours));
            y = y.min(window(theirs));
        }
        (x, y)
    }

    const PASSES: usize = 3;

    // The best of all passes so far, in the order of measuring: a machine that others share is slow for seconds at a time. The last
    // pass prints.
    struct Report {
        best: Vec<(f64, f64)>,
        next: usize,
        last: bool,
        logs: f64,
        cells: usize,
        over: usize,
    }

    impl Report {
        fn say(&self, line: &str) {
            if self.last {
                println!("{line}");
            }
        }

        fn best(&mut self, ours: f64, theirs: f64) -> (f64, f64) {
            if self.next == self.best.len() {
                self.best.push((f64::MAX, f64::MAX));
            }
            let (x, y) = self.best[self.next];
            let found = (x.min(ours), y.min(theirs));
            self.best[self.next] = found;
            self.next += 1;
            found
        }

        // No cell of the mean.
        fn aside(&mut self, what: &str, size: &str, ours: &mut dyn FnMut(), theirs: &mut dyn FnMut()) -> f64 {
            let (x, y) = sides(ours, theirs);
            let (x, y) = self.best(x, y);
            self.say(&format!("| {what} | {size} | {} | {} | {:.2} |", show(x), show(y), x / y));
            x / y
        }

        fn row(&mut self, what: &str, size: &str, ours: &mut dyn FnMut(), theirs: &mut dyn FnMut()) {
            let ratio = self.aside(what, size, ours, theirs);
            self.logs += ratio.ln();
            self.cells += 1;
            self.over += (ratio >= 1.0) as usize;
        }
    }

    pub fn all() {
        let mut best = Vec::new();
        for k in 1..=PASSES {
            let mut report = Report { best, next: 0, last: k == PASSES, logs: 0.0, cells: 0, over: 0 };
            pass(&mut report);
            best = report.best;
        }
    }

    fn show(ns: f64) -> String {
        if ns < 100.0 {
            format!("{ns:.1}")
        } else {
            format!("{ns:.0}")
        }
    }

    pub fn encode(s: &OperationSeq) -> Vec<u8> {
        let mut rec = ot::EMPTY.to_vec();
        for o in s.ops() {
            let mut out = vec![0; ot::RECORD];
            let n = match o {
                Operation::Retain(n) => ot::retain(&rec, *n, &mut out),
                Operation::Insert(t) => ot::insert(&rec, t.as_bytes(), &mut out),
                Operation::Delete(n) => ot::delete(&rec, *n, &mut out),
            };
            rec = out[..n.unwrap()].to_vec();
        }
        rec
    }

    fn letters(mixed: bool, n: usize, seed: usize) -> String {
        const MIXED: [char; 8] = ['G', 'e', 'r', 'ä', 't', '€', 'n', '😀'];
        const ASCII: [char; 8] = ['n', 'i', 'c', 'h', 't', ' ', 'a', 'b'];
        (0..n).map(|i| if mixed { MIXED[(i + seed) % 8] } else { ASCII[(i + seed) % 8] }).collect()
    }

    // `operations` operations over a base of at least that many characters: retains, inserts and deletes in turn.
    fn sequence(operations: usize, mixed: bool, base: usize, seed: usize) -> OperationSeq {
        let mut s = OperationSeq::default();
        let mut k = 0;
        while s.ops().len() < operations {
            match (k + seed) % 3 {
                0 => s.retain(2 + (k as u64 + seed as u64) % 3),
                1 => s.insert(&letters(mixed, 1 + (k + seed) % 5, k)),
                _ => s.delete(1 + k as u64 % 2),
            }
            k += 1;
        }
        if s.base_len() < base {
            s.retain((base - s.base_len()) as u64);
        }
        s
    }

    fn pass(report: &mut Report) {
        report.say("| call | operations | ours, ns | the Rust, ns | ratio |");
        report.say("|---|---|---|---|---|");
        for mixed in [false, true] {
            let kind = if mixed { "mixed" } else { "ASCII" };
            for operations in [1, 10, 100, 1000] {
                let size = format!("{operations}, {kind}");
                let base = 4 * operations + 8;
                let x = sequence(operations, mixed, base, 0);
                let base = x.base_len();
                let y = sequence(operations, mixed, base, 1);
                let y = if y.base_len() == base { y } else { sequence(operations, mixed, base, 2) };
                let y = if y.base_len() == base { y } else { sequence(operations, mixed, base, 0) };
                let z = {
                    let mut z = sequence(operations.saturating_sub(1).max(1), mixed, 0, 1);
                    while z.base_len() > x.target_len() {
                        z = sequence(z.ops().len() / 2, mixed, 0, 1);
                    }
                    z.retain((x.target_len() - z.base_len()) as u64);
                    z
                };
                let text = letters(mixed, base, 3);
                let (a, b, c) = (encode(&x), encode(&y), encode(&z));
                let mut out = vec![0u8; ot::RECORD];
                let mut other = vec![0u8; ot::RECORD];
                let mut long = vec![0u8; 4 * ot::RECORD];
                report.row(
                    "apply",
                    &size,
                    &mut || {
                        keep(ot::apply(black_box(&a), black_box(text.as_bytes()), &mut long).unwrap());
                    },
                    &mut || {
                        black_box(black_box(&x).apply(black_box(&text)).unwrap());
                    },
                );
                report.row(
                    "invert",
                    &size,
                    &mut || {
                        keep(ot::invert(black_box(&a), black_box(text.as_bytes()), &mut out).unwrap());
                    },
                    &mut || {
                        black_box(black_box(&x).invert(black_box(&text)));
                    },
                );
                report.row(
                    "compose",
                    &size,
                    &mut || {
                        keep(ot::compose(black_box(&a), black_box(&c), &mut out).unwrap());
                    },
                    &mut || {
                        black_box(black_box(&x).compose(black_box(&z)).unwrap());
                    },
                );
                report.row(
                    "transform",
                    &size,
                    &mut || {
                        keep(ot::transform(black_box(&a), black_box(&b), &mut out, &mut other).unwrap().0);
                    },
                    &mut || {
                        black_box(black_box(&x).transform(black_box(&y)).unwrap());
                    },
                );
                let word = letters(mixed, 5, 0);
                report.row(
                    "build (one more)",
                    &size,
                    &mut || {
                        keep(ot::insert(black_box(&a), black_box(word.as_bytes()), &mut out).unwrap());
                    },
                    &mut || {
                        let mut s = black_box(&x).clone();
                        s.insert(black_box(&word));
                        black_box(s);
                    },
                );
            }
        }
        report.say("");
        report.say("| call | bytes | ours, ns | the Rust, ns | ratio |");
        report.say("|---|---|---|---|---|");
        for mixed in [false, true] {
            let kind = if mixed { "mixed" } else { "ASCII" };
            for bytes in [64, 1024, 65_536] {
                let mut text = letters(mixed, bytes, 0).into_bytes();
                while text.len() > bytes || std::str::from_utf8(&text).is_err() {
                    text.pop();
                }
                let size = format!("{bytes}, {kind}");
                report.row(
                    "well_formed",
                    &size,
                    &mut || {
                        keep(ot::well_formed(black_box(&text)) as usize);
                    },
                    &mut || {
                        keep(std::str::from_utf8(black_box(&text)).is_ok() as usize);
                    },
                );
                report.row(
                    "num_chars",
                    &size,
                    &mut || {
                        keep(ot::num_chars(black_box(&text)));
                    },
                    &mut || {
                        keep(bytecount::num_chars(black_box(&text)));
                    },
                );
            }
        }
        report.say("");
        report.say("| call | bytes of German | ours, ns | the Rust, ns | ratio |");
        report.say("|---|---|---|---|---|");
        for bytes in [40, 640] {
            let mut text = "Geräte sperren, die nicht gelistet sind. ".repeat(bytes / 40 + 1).into_bytes();
            text.truncate(bytes);
            report.aside(
                "well_formed",
                &bytes.to_string(),
                &mut || {
                    keep(ot::well_formed(black_box(&text)) as usize);
                },
                &mut || {
                    keep(std::str::from_utf8(black_box(&text)).is_ok() as usize);
                },
            );
        }
        report.say("");
        report.say("| call | revisions passed | ours, ns | the Rust, ns | ratio |");
        report.say("|---|---|---|---|---|");
        for passed in [0usize, 1, 16, 255] {
            let mut history = Vec::new();
            let mut log = vec![0u8; ot::LOG];
            let mut len = 40u64;
            let mut size = ot::open(len, &mut log).unwrap();
            let mut out = vec![0u8; ot::COUNTERPARTS];
            for k in 0..passed {
                let mut v = OperationSeq::default();
                v.retain(len / 2);
                v.insert(&letters(k % 2 == 1, 1, k));
                v.retain(len - len / 2);
                len += 1;
                let rec = encode(&v);
                size += ot::accept(&rec, k as u64, &mut log, &mut out).unwrap().0;
                history.push(v);
            }
            let mut e = OperationSeq::default();
            e.retain(10);
            e.delete(3);
            e.insert("nicht");
            e.retain(27);
            let edit = encode(&e);
            let room = size + 200;
            let kept = log[..4].to_vec();
            report.row(
                "accept",
                &passed.to_string(),
                &mut || {
                    log[..4].copy_from_slice(&kept);
                    keep(ot::accept(black_box(&edit), 0, &mut log[..room], &mut out).unwrap().0);
                },
                &mut || {
                    let mut moved = black_box(&e).clone();
                    let mut counterparts = Vec::new();
                    for v in black_box(&history) {
                        let (left, right) = moved.transform(v).unwrap();
                        moved = left;
                        counterparts.push(right);
                    }
                    black_box((moved, counterparts));
                },
            );
        }
        report.say("");
        report.say("| accept against the newest revision | bytes of log | ours, ns | ns for each byte |");
        report.say("|---|---|---|---|");
        for revisions in [1usize, 16, 255] {
            let mut log = vec![0u8; ot::LOG];
            let mut out = vec![0u8; 8];
            let mut len = 40u64;
            let mut size = ot::open(len, &mut log).unwrap();
            let edit = |len: u64, k: usize| {
                let mut v = OperationSeq::default();
                v.retain(len / 2);
                v.insert(&letters(k % 2 == 1, 1, k));
                v.retain(len - len / 2);
                encode(&v)
            };
            for k in 0..revisions {
                size += ot::accept(&edit(len, k), k as u64, &mut log, &mut out).unwrap().0;
                len += 1;
            }
            let rec = edit(len, revisions);
            let kept = log[..4].to_vec();
            let room = size + 200;
            let ours = (0..WINDOWS).map(|_| {
                window(&mut || {
                    log[..4].copy_from_slice(&kept);
                    keep(ot::accept(black_box(&rec), revisions as u64, &mut log[..room], &mut out).unwrap().0);
                })
            });
            let ours = ours.fold(f64::MAX, f64::min);
            let (ours, _) = report.best(ours, f64::MAX);
            report.say(&format!("| after {revisions} | {size} | {} | {:.2} |", show(ours), ours / size as f64));
        }
        report.say("");
        report.say("| call | the newest of so many revisions | ours, ns | play and accept, ns | ratio |");
        report.say("|---|---|---|---|---|");
        for revisions in [1usize, 16, 255] {
            let text = letters(false, 40, 0);
            let mut log = vec![0u8; ot::LOG];
            let mut out = vec![0u8; 8];
            let mut len = 40u64;
            let mut size = ot::open(len, &mut log).unwrap();
            for k in 0..revisions {
                let mut newest = OperationSeq::default();
                newest.retain(len / 2);
                newest.insert(&letters(k % 2 == 1, 1, k));
                newest.retain(len - len / 2);
                len += 1;
                size += ot::accept(&encode(&newest), k as u64, &mut log, &mut out).unwrap().0;
            }
            let mut back = OperationSeq::default();
            back.retain((len - 1) / 2);
            back.delete(1);
            back.retain(len - 1 - (len - 1) / 2);
            let inverse = encode(&back);
            let mut log_2 = log.clone();
            let kept = log[..4].to_vec();
            let room = size + 200;
            let (mut a, mut b, mut shipped) = (vec![0u8; 2048], vec![0u8; 2048], vec![0u8; 2048]);
            let (mut a_2, mut b_2, mut out_2) = (vec![0u8; 2048], vec![0u8; 2048], vec![0u8; 8]);
            report.aside(
                "undo",
                &revisions.to_string(),
                &mut || {
                    log[..4].copy_from_slice(&kept);
                    let k = revisions as u64;
                    keep(ot::undo(&mut log[..room], k, black_box(text.as_bytes()), &mut a, &mut b, &mut out).unwrap().0);
                },
                &mut || {
                    log_2[..4].copy_from_slice(&kept);
                    let k = revisions as u64;
                    keep(ot::play(&log_2[..room], black_box(text.as_bytes()), &mut a_2, &mut b_2, &mut shipped).unwrap());
                    keep(ot::accept(black_box(&inverse), k, &mut log_2[..room], &mut out_2).unwrap().0);
                },
            );
        }
        report.say("");
        report.say("| call | ns for each operation at 100 | at 1000 | at 1024 |");
        report.say("|---|---|---|---|");
        for what in ["check", "apply", "compose", "transform"] {
            let mut row = Vec::new();
            for operations in [100usize, 1000, 1023] {
                let x = sequence(operations, false, 4 * operations + 8, 0);
                let mut y = OperationSeq::default();
                y.retain(x.base_len() as u64);
                let mut z = OperationSeq::default();
                z.retain(x.target_len() as u64);
                let text = letters(false, x.base_len(), 3);
                let (a, b, c) = (encode(&x), encode(&y), encode(&z));
                let mut out = vec![0u8; 4 * ot::RECORD];
                let mut other = vec![0u8; 4 * ot::RECORD];
                let ours = (0..WINDOWS).map(|_| {
                    window(&mut || match what {
                        "check" => {
                            keep(ot::check(black_box(&a)).unwrap());
                        }
                        "apply" => {
                            keep(ot::apply(black_box(&a), text.as_bytes(), &mut out).unwrap());
                        }
                        "compose" => {
                            keep(ot::compose(black_box(&a), black_box(&c), &mut out).unwrap());
                        }
                        _ => {
                            keep(ot::transform(black_box(&a), black_box(&b), &mut out, &mut other).unwrap().0);
                        }
                    })
                });
                let ours = ours.fold(f64::MAX, f64::min);
                let (ours, _) = report.best(ours, f64::MAX);
                row.push(ours / x.ops().len() as f64);
            }
            report.say(&format!("| {what} | {} | {} | {} |", show(row[0]), show(row[1]), show(row[2])));
        }
        report.say("");
        report.say("| call | operations | ours, ns | the Rust, ns | ratio |");
        report.say("|---|---|---|---|---|");
        for operations in [1, 10, 100, 1000] {
            let x = sequence(operations, false, 0, 0);
            let mut rec = vec![0u8; ot::RECORD];
            let mut out = vec![0u8; ot::RECORD];
            report.aside(
                "build, from nothing",
                &operations.to_string(),
                &mut || {
                    rec[..8].copy_from_slice(&ot::EMPTY);
                    for o in black_box(&x).ops() {
                        match o {
                            Operation::Retain(n) => ot::retain(&rec, *n, &mut out),
                            Operation::Insert(t) => ot::insert(&rec, t.as_bytes(), &mut out),
                            Operation::Delete(n) => ot::delete(&rec, *n, &mut out),
                        }
                        .unwrap();
                        std::mem::swap(&mut rec, &mut out);
                    }
                },
                &mut || {
                    black_box(black_box(&x).ops().iter().cloned().collect::<OperationSeq>());
                },
            );
        }
        report.say("");
        let mean = (report.logs / report.cells as f64).exp();
        report
            .say(&format!("{} cells, {} of them not below 1; geometric mean of the ratios {mean:.3}", report.cells, report.over));
    }
}
