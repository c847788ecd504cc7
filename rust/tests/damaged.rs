// Random bytes, damaged records, damaged logs and damaged lists into every function. Each buffer ends where a page begins that may
// not be touched, and has bytes before it that must stay: a read or a write outside ends the test.
mod common;

use common::{damaged, Random};
use ot::Refusal;

const PAGE: usize = 4096;

extern "C" {
    fn mmap(at: *mut u8, len: usize, prot: i32, flags: i32, fd: i32, offset: i64) -> *mut u8;
    fn mprotect(at: *mut u8, len: usize, prot: i32) -> i32;
}

// Whole pages, and behind them one that may not be touched.
struct Pages {
    start: *mut u8,
    len: usize,
}

impl Pages {
    fn new(pages: usize) -> Pages {
        let len = pages * PAGE;
        unsafe {
            let start = mmap(std::ptr::null_mut(), len + PAGE, 3, 0x22, -1, 0);
            assert!(!start.is_null() && start as isize != -1);
            assert_eq!(mprotect(start.add(len), PAGE, 0), 0);
            Pages { start, len }
        }
    }

    // These bytes, against the page behind; all before them is 0xA5.
    fn lend(&mut self, bytes: &[u8]) -> &mut [u8] {
        let all = unsafe { std::slice::from_raw_parts_mut(self.start, self.len) };
        let at = self.len - bytes.len();
        all[at.saturating_sub(64)..at].fill(0xA5);
        all[at..].copy_from_slice(bytes);
        unsafe { std::slice::from_raw_parts_mut(self.start.add(at), bytes.len()) }
    }

    fn before_untouched(&self, lent: usize) {
        let all = unsafe { std::slice::from_raw_parts(self.start, self.len) };
        let at = self.len - lent;
        assert!(all[at.saturating_sub(64)..at].iter().all(|b| *b == 0xA5));
    }
}

// A buffer to write to: what stood in it, and what may have changed.
fn settled(before: &[u8], after: &[u8], got: Result<usize, Refusal>) {
    match got {
        Ok(n) => assert_eq!(before[n..], after[n..]),
        Err(_) => assert_eq!(before, after),
    }
}

// How many bytes of the buffer are the log's.
fn contents(log: &[u8]) -> usize {
    let count = log[0] as usize + 256 * log[1] as usize;
    (0..count).fold(4, |at, _| at + ot::check(&log[at..]).unwrap())
}

// A log before and after a call that appends to it: one record more behind its contents, or no change.
fn grown(before: &[u8], after: &[u8], got: Result<(usize, usize), Refusal>) {
    match got {
        Ok((added, _)) => {
            let end = contents(before);
            assert_eq!(after[2..end], before[2..end]);
            assert_eq!(after[end + added..], before[end + added..]);
            assert_eq!(ot::check(&after[end..]), Ok(added));
            assert_eq!(after[0] as usize + 256 * after[1] as usize, before[0] as usize + 256 * before[1] as usize + 1);
        }
        Err(_) => assert_eq!(after, before),
    }
}

#[test]
fn nothing_outside_a_result_changes() {
    let mut random = Random(99);
    let (mut p, mut q, mut s, mut t, mut u) = (Pages::new(10), Pages::new(10), Pages::new(10), Pages::new(10), Pages::new(10));
    let mut calls = 0u64;
    let mut went = 0u64;
    let mut undone = 0u64;
    for round in 0..200_000u64 {
        let bytes = |random: &mut Random, most: usize| -> Vec<u8> {
            let n = random.below(most);
            (0..n).map(|_| random.next() as u8).collect()
        };
        // a record, another one, a log of both and a text, each damaged at times
        let record = |random: &mut Random, base: usize| -> Vec<u8> {
            let mut rec = ot::EMPTY.to_vec();
            let mut left = base;
            for _ in 0..random.below(6) {
                let mut out = vec![0; 400];
                let n = 1 + random.below(5);
                let size = match random.below(3) {
                    0 => ot::insert(&rec, random.text(n).as_bytes(), &mut out),
                    1 => ot::retain(&rec, n.min(left) as u64, &mut out),
                    _ => ot::delete(&rec, n.min(left) as u64, &mut out),
                }
                .unwrap();
                left = base - ot::base_len(&out[..size]).unwrap();
                rec = out[..size].to_vec();
            }
            let mut out = vec![0; 400];
            let size = ot::retain(&rec, left as u64, &mut out).unwrap();
            out[..size].to_vec()
        };
        let base = random.below(9);
        let mut a = record(&mut random, base);
        let target = ot::target_len(&a).unwrap();
        let same = random.below(2) == 0;
        let mut b = record(&mut random, if same { base } else { target });
        let mut log = vec![0; 4];
        ot::open(base as u64, &mut log).unwrap();
        log[0] = 1;
        log.extend(&a);
        if !same {
            log[0] = 2;
            log.extend(&b);
        }
        let tail = random.below(80);
        log.resize(log.len() + tail, 0x5A);
        let mut text = random.text(base).into_bytes();
        match round % 5 {
            0 => a = damaged(&a, &mut random),
            1 => b = damaged(&b, &mut random),
            2 => log = damaged(&log, &mut random),
            3 => {
                a = bytes(&mut random, 60);
                text = bytes(&mut random, 20);
            }
            _ => {}
        }
        let n = [0, 1, 7, 32_768, 32_769, u64::MAX][random.below(6)];
        let (size_x, size_y) = (random.below(120), random.below(120));
        let x = vec![0x11; size_x];
        let y = vec![0x22; size_y];
        macro_rules! writes {
            ($first:expr, $second:expr, $call:expr) => {{
                let (pa, qb) = (p.lend($first) as &[u8], q.lend($second) as &[u8]);
                let out = s.lend(&x);
                let got = $call(pa, qb, &mut *out);
                settled(&x, out, got);
                assert_eq!((pa, qb), ($first, $second));
                s.before_untouched(x.len());
                p.before_untouched($first.len());
                q.before_untouched($second.len());
                calls += 1;
                went += got.is_ok() as u64;
            }};
        }
        let (a, b, log, text) = (&a[..], &b[..], &log[..], &text[..]);
        writes!(a, text, |r: &[u8], _t: &[u8], o: &mut [u8]| ot::retain(r, n, o));
        writes!(a, text, |r: &[u8], _t: &[u8], o: &mut [u8]| ot::delete(r, n, o));
        writes!(a, text, |r: &[u8], t: &[u8], o: &mut [u8]| ot::insert(r, t, o));
        writes!(a, text, |r: &[u8], t: &[u8], o: &mut [u8]| ot::apply(r, t, o));
        writes!(a, text, |r: &[u8], t: &[u8], o: &mut [u8]| ot::invert(r, t, o));
        writes!(a, b, |r: &[u8], t: &[u8], o: &mut [u8]| ot::compose(r, t, o));
        writes!(log, text, |l: &[u8], _t: &[u8], o: &mut [u8]| ot::summary(l, o));
        writes!(a, text, |r: &[u8], t: &[u8], o: &mut [u8]| {
            let found = [ot::check(r), ot::base_len(r), ot::target_len(r), ot::is_noop(r).map(usize::from)];
            assert!(found.iter().all(|f| f.is_ok() == found[0].is_ok()));
            let k = n as usize % 5;
            assert!(ot::insert_text(r, k).len() <= r.len());
            assert!(ot::step(r, k).is_none() || found[0].is_ok());
            assert!(ot::num_chars(t) <= t.len() && ot::well_formed(t) == std::str::from_utf8(t).is_ok());
            ot::open(n, o)
        });
        // two outputs
        let (pa, qb) = (p.lend(a) as &[u8], q.lend(b) as &[u8]);
        let (ox, oy) = (s.lend(&x), t.lend(&y));
        let got = ot::transform(pa, qb, ox, oy);
        settled(&x, ox, got.map(|g| g.0));
        settled(&y, oy, got.map(|g| g.1));
        assert_eq!((pa, qb), (a, b));
        // a log and an output
        let r = n.min(random.below(4) as u64);
        let ol = q.lend(log);
        let oy = t.lend(&y);
        let got = ot::accept(pa, r, ol, oy);
        settled(&y, oy, got.map(|g| g.1));
        grown(log, ol, got);
        went += got.is_ok() as u64;
        assert_eq!(pa, a);
        q.before_untouched(log.len());
        t.before_untouched(y.len());
        // two scratch buffers
        let (pl, qt) = (p.lend(log) as &[u8], q.lend(text) as &[u8]);
        let (o1, o2, o3) = (s.lend(&x), t.lend(&y), u.lend(&x));
        let got = ot::play(pl, qt, o1, o2, o3);
        settled(&x, o3, got);
        assert_eq!((pl, qt), (log, text));
        for (pages, lent) in [(&p, log.len()), (&q, text.len()), (&s, x.len()), (&t, y.len()), (&u, x.len())] {
            pages.before_untouched(lent);
        }
        went += got.is_ok() as u64;
        // a log, two scratch buffers and an output
        let k = [r, 1 + r, n][random.below(3)];
        let (pl, qt) = (p.lend(log), q.lend(text) as &[u8]);
        let (o1, o2, o3) = (s.lend(&x), t.lend(&y), u.lend(&x));
        let got = ot::undo(pl, k, qt, o1, o2, o3);
        settled(&x, o3, got.map(|g| g.1));
        grown(log, pl, got);
        assert_eq!(qt, text);
        for (pages, lent) in [(&p, log.len()), (&q, text.len()), (&s, x.len()), (&t, y.len()), (&u, x.len())] {
            pages.before_untouched(lent);
        }
        undone += got.is_ok() as u64;
        calls += 4;
        went += got.is_ok() as u64;
    }
    println!("{calls} calls on damaged input; {went} went through, {undone} of them undos; nothing outside a result changed");
    assert!(went > calls / 20 && undone > 5_000);
}

// A list of so many values, with white space and escapes: most strings are short, and some have many characters. Numbers in a long
// list are small, so that some of these pass no limit.
fn list(random: &mut Random, values: usize) -> Vec<u8> {
    fn space(list: &mut Vec<u8>, random: &mut Random) {
        while random.below(4) == 0 {
            list.push(b" \t\n\r"[random.below(4)]);
        }
    }
    let mut list = Vec::new();
    space(&mut list, random);
    list.push(b'[');
    for k in 0..values {
        if k > 0 {
            list.push(b',');
        }
        space(&mut list, random);
        match random.below(4) {
            0 => {
                let most = if values < 50 { [9, 300, 40_000, 1 << 40][random.below(4)] } else { 20 };
                list.extend(format!("{}", 1 + random.below(most)).bytes());
            }
            1 => list.extend(format!("-{}", 1 + random.below(20)).bytes()),
            _ => {
                list.push(b'"');
                let most = if random.below(50 + values) == 0 { 4000 } else { 20 };
                for _ in 0..random.below(most) {
                    match random.below(8) {
                        0 => list.extend(format!("\\u{:04x}", random.below(0xD800)).bytes()),
                        1 => {
                            let (high, low) = (0xD800 + random.below(0x400), 0xDC00 + random.below(0x400));
                            list.extend(format!("\\u{high:04X}\\u{low:04x}").bytes());
                        }
                        2 => list.extend([b'\\', b"\"\\/bfnrt"[random.below(8)]]),
                        _ => list.extend(random.letter().to_string().bytes()),
                    }
                }
                list.push(b'"');
            }
        }
        space(&mut list, random);
    }
    list.push(b']');
    space(&mut list, random);
    list
}

// A copy of a list with some bytes changed, dropped, doubled, put in, exchanged or cut off.
fn damaged_list(list: &[u8], random: &mut Random) -> Vec<u8> {
    const SIGNS: &[u8] = b"[]{},:-+.\"\\/0123456789eEtfnu \t\n\r\x00\x1F\x7F\x80\xBF\xC0\xC3\xE0\xED\xEF\xBB\xF0\xF4\xFF";
    let mut bytes = list.to_vec();
    for _ in 0..1 + random.below(2) {
        if bytes.is_empty() {
            return bytes;
        }
        let i = random.below(bytes.len());
        let b = if random.below(2) == 0 { SIGNS[random.below(SIGNS.len())] } else { random.next() as u8 };
        match random.below(6) {
            0 => bytes[i] = b,
            1 => drop(bytes.remove(i)),
            2 => bytes.insert(i, bytes[i]),
            3 => bytes.insert(i, b),
            4 => {
                let j = random.below(bytes.len());
                bytes.swap(i, j);
            }
            _ => bytes.truncate(i),
        }
    }
    bytes
}

// What is read, what is written to, and how many calls there were.
struct Lent {
    read: Pages,
    written: Pages,
    calls: u64,
    went: u64,
}

impl Lent {
    // One call with so much room: its answer and what it wrote.
    fn call(
        &mut self,
        call: fn(&[u8], &mut [u8]) -> Result<usize, Refusal>,
        bytes: &[u8],
        room: usize,
    ) -> Result<Vec<u8>, Refusal> {
        let before = vec![0x11; room];
        let (read, out) = (self.read.lend(bytes) as &[u8], self.written.lend(&before));
        let got = call(read, out);
        settled(&before, out, got);
        assert_eq!(read, bytes);
        let written = got.map(|n| out[..n].to_vec());
        self.read.before_untouched(bytes.len());
        self.written.before_untouched(room);
        self.calls += 1;
        self.went += got.is_ok() as u64;
        written
    }

    // The same with all the room there can be need of, with just enough, with more, with less by one, with less, and with none: the
    // answer is the same but for 10, which is given exactly where there is too little. A refusal is the same with any room.
    fn with_every_room(
        &mut self,
        call: fn(&[u8], &mut [u8]) -> Result<usize, Refusal>,
        bytes: &[u8],
        most: usize,
        random: &mut Random,
    ) -> Result<Vec<u8>, Refusal> {
        let got = self.call(call, bytes, most);
        match &got {
            Ok(written) => {
                let n = written.len();
                assert_eq!(self.call(call, bytes, n), got);
                assert_eq!(self.call(call, bytes, (n + 1 + random.below(40)).min(most)), got);
                for room in [n - 1, random.below(n), 0] {
                    assert_eq!(self.call(call, bytes, room), Err(Refusal::Room));
                }
            }
            Err(_) => {
                for room in [0, random.below(60), random.below(most)] {
                    assert_eq!(self.call(call, bytes, room), got);
                }
            }
        }
        got
    }
}

#[test]
fn lists_are_read_and_written_inside_their_buffers() {
    let mut random = Random(100);
    let mut lent = Lent { read: Pages::new(60), written: Pages::new(60), calls: 0, went: 0 };
    let mut refused = [0u64; 3];
    for round in 0..60_000u64 {
        let values = match round % 401 {
            0 => 500 + random.below(2_500),
            n if n % 20 == 1 => random.below(100),
            _ => random.below(8),
        };
        let whole = list(&mut random, values);
        let bytes = match round % 4 {
            0 => whole,
            1 => whole[..random.below(whole.len())].to_vec(),
            2 => damaged_list(&whole, &mut random),
            _ if random.below(2) == 0 => damaged_list(&damaged_list(&whole, &mut random), &mut random),
            _ => (0..random.below(40)).map(|_| random.next() as u8).collect(),
        };
        match lent.with_every_room(ot::from_json, &bytes, ot::RECORD, &mut random) {
            Ok(rec) => {
                assert_eq!(ot::check(&rec), Ok(rec.len()));
                let written = lent.with_every_room(ot::to_json, &rec, ot::JSON, &mut random).unwrap();
                assert_eq!(lent.call(ot::from_json, &written, rec.len()).as_ref(), Ok(&rec));
                let cut = random.below(written.len());
                assert_eq!(lent.call(ot::from_json, &written[..cut], ot::RECORD), Err(Refusal::Json));
                let broken = damaged(&rec, &mut random);
                let got = lent.with_every_room(ot::to_json, &broken, ot::JSON, &mut random);
                assert_eq!(got.err(), ot::check(&broken).err());
            }
            Err(Refusal::Limit) => refused[0] += 1,
            Err(Refusal::Json) => refused[1] += 1,
            Err(refusal) => panic!("{refusal}"),
        }
        let noise: Vec<u8> = (0..random.below(40)).map(|_| if random.below(12) == 0 { random.next() as u8 } else { 0 }).collect();
        let got = lent.with_every_room(ot::to_json, &noise, ot::JSON, &mut random);
        refused[2] += got.is_err() as u64;
        assert_eq!(got.err(), ot::check(&noise).err());
    }
    let Lent { calls, went, .. } = lent;
    println!(
        "{calls} calls on lists and records, damaged ones among them; {went} went through; of the lists {} passed a limit and {} \
         were no list; of the records that were noise {} were refused; nothing outside a result changed",
        refused[0], refused[1], refused[2]
    );
    assert!(went > calls / 20 && refused[0] > 100);
}
