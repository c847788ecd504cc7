// Undo in random sessions, against a model made of the other calls by document 02's words: the revisions before k are played by
// apply, k is inverted on that text, and the inverse accepted as written against k into a copy of the log. Answer, log and
// counterparts are the same byte for byte, with buffers of every size, and the refusals come in their order.
mod common;

use common::{damaged, Random};
use ot::Refusal;

// A session's starting text, its log and the revisions' records, oldest first.
struct Session {
    text: Vec<u8>,
    log: Vec<u8>,
    history: Vec<Vec<u8>>,
}

// An edit of a text that has so many characters.
fn edit(random: &mut Random, base: usize) -> Vec<u8> {
    let mut rec = ot::EMPTY.to_vec();
    let mut left = base;
    for _ in 0..random.below(6) {
        let mut out = vec![0; 600];
        let n = 1 + random.below(4);
        let size = match random.below(3) {
            0 => ot::insert(&rec, random.text(n).as_bytes(), &mut out),
            1 => ot::retain(&rec, n.min(left) as u64, &mut out),
            _ => ot::delete(&rec, n.min(left) as u64, &mut out),
        };
        rec = out[..size.unwrap()].to_vec();
        left = base - ot::base_len(&rec).unwrap();
    }
    let mut out = vec![0; 600];
    let size = ot::retain(&rec, left as u64, &mut out).unwrap();
    out[..size].to_vec()
}

fn applied(rec: &[u8], text: &[u8]) -> Vec<u8> {
    let mut out = vec![0; ot::num_chars(text) * 4 + rec.len()];
    let n = ot::apply(rec, text, &mut out).unwrap();
    out[..n].to_vec()
}

fn played(session: &Session) -> Vec<u8> {
    let (mut a, mut b, mut out) = (vec![0; 4000], vec![0; 4000], vec![0; 4000]);
    let n = ot::play(&session.log, &session.text, &mut a, &mut b, &mut out).unwrap();
    out[..n].to_vec()
}

fn summary(log: &[u8]) -> Vec<u8> {
    let mut out = vec![0; ot::RECORD];
    let n = ot::summary(log, &mut out).unwrap();
    out[..n].to_vec()
}

impl Session {
    fn new(text: Vec<u8>) -> Session {
        let mut log = vec![0; 4];
        ot::open(ot::num_chars(&text) as u64, &mut log).unwrap();
        Session { text, log, history: Vec::new() }
    }

    fn length_at(&self, r: usize) -> usize {
        match r {
            0 => ot::num_chars(&self.text),
            _ => ot::target_len(&self.history[r - 1]).unwrap(),
        }
    }

    // An edit against revision r, into a log whose buffer ends with its contents; the counterparts.
    fn accept(&mut self, edit: &[u8], r: usize) -> Vec<u8> {
        let size = self.log.len();
        let mut out = vec![0; 60_000];
        self.log.resize(size + 2000, 0);
        let (added, n) = ot::accept(edit, r as u64, &mut self.log, &mut out).unwrap();
        self.log.truncate(size + added);
        self.history.push(self.log[size..].to_vec());
        out[..n].to_vec()
    }

    // The inverse of revision k on the text before it, and the most bytes that a text up to that one has.
    fn inverse(&self, k: usize, text: &[u8]) -> (Vec<u8>, usize) {
        let mut before = text.to_vec();
        let mut longest = before.len();
        for rec in &self.history[..k - 1] {
            before = applied(rec, &before);
            longest = longest.max(before.len());
        }
        let mut out = vec![0; ot::RECORD];
        let n = ot::invert(&self.history[k - 1], &before, &mut out).unwrap();
        (out[..n].to_vec(), longest)
    }
}

// What an undo is lent: how many bytes the log's buffer has behind its contents, both scratch buffers and the output.
#[derive(Clone, Copy)]
struct Sizes {
    rest: usize,
    a: usize,
    b: usize,
    out: usize,
}

// The answer, the whole log's buffer and the whole output.
#[derive(PartialEq, Eq)]
struct Outcome {
    got: Result<(usize, usize), Refusal>,
    log: Vec<u8>,
    out: Vec<u8>,
}

fn undone(log: &[u8], k: u64, text: &[u8], sizes: Sizes) -> Outcome {
    let mut log = log.to_vec();
    log.resize(log.len() + sizes.rest, 0x33);
    let (mut a, mut b, mut out) = (vec![0x11; sizes.a], vec![0x22; sizes.b], vec![0x44; sizes.out]);
    let got = ot::undo(&mut log, k, text, &mut a, &mut b, &mut out);
    Outcome { got, log, out }
}

// The same by the model: text 3, log 6, k 7, starting length 8, scratch 10, and then accept of the inverse.
fn expected(session: &Session, readable: bool, log: &[u8], k: u64, text: &[u8], sizes: Sizes) -> Outcome {
    let mut log = log.to_vec();
    log.resize(log.len() + sizes.rest, 0x33);
    let mut out = vec![0x44; sizes.out];
    let mut answer = || {
        if std::str::from_utf8(text).is_err() {
            return Err(Refusal::Utf8);
        }
        if !readable {
            return Err(Refusal::Log);
        }
        if k == 0 || k > session.history.len() as u64 {
            return Err(Refusal::Revision);
        }
        if ot::num_chars(text) != ot::num_chars(&session.text) {
            return Err(Refusal::IncompatibleLengths);
        }
        let (inverse, longest) = session.inverse(k as usize, text);
        if sizes.a < longest || sizes.b < longest {
            return Err(Refusal::Room);
        }
        ot::accept(&inverse, k, &mut log, &mut out)
    };
    let got = answer();
    Outcome { got, log, out }
}

// A copy at revision k that takes back its newest and then plays the counterparts has the server's text and summary.
fn copy_meets(session: &Session, k: usize, parts: &[u8], server: &Session) {
    let mut copy = Session::new(session.text.clone());
    for (r, rec) in session.history[..k].iter().enumerate() {
        copy.accept(rec, r);
    }
    let (inverse, _) = session.inverse(k, &session.text);
    copy.accept(&inverse, k);
    let mut rest = parts;
    while !rest.is_empty() {
        let (part, others) = rest.split_at(ot::check(rest).unwrap());
        copy.accept(part, copy.history.len());
        rest = others;
    }
    assert_eq!(copy.history.len(), server.history.len());
    assert_eq!(played(&copy), played(server));
    assert_eq!(summary(&copy.log), summary(&server.log));
}

// How many calls there were, and how many of them went through or got 3, 6, 7, 8, 9 and 10.
#[derive(Default)]
struct Tally {
    calls: u64,
    went: u64,
    refused: [u64; 12],
}

impl Tally {
    fn compare(&mut self, session: &Session, readable: bool, log: &[u8], k: u64, text: &[u8], sizes: Sizes) -> Outcome {
        let outcome = undone(log, k, text, sizes);
        assert!(outcome == expected(session, readable, log, k, text, sizes), "k {k} of {}", session.history.len());
        self.calls += 1;
        match outcome.got {
            Ok(_) => self.went += 1,
            Err(refusal) => self.refused[refusal.number() as usize] += 1,
        }
        outcome
    }

    // One revision taken back with sizes about the exact ones, and with more than enough; what that leaves.
    fn revision(&mut self, session: &Session, k: usize, random: &mut Random) -> Outcome {
        let (_, longest) = session.inverse(k, &session.text);
        let wide = Sizes { rest: 2000, a: 4000, b: 4000, out: 60_000 };
        let whole = self.compare(session, true, &session.log, k as u64, &session.text, wide);
        let (added, parts) = whole.got.unwrap();
        for _ in 0..6 {
            let mut near = |n: usize, more: usize| match random.below(4) {
                0 => n.saturating_sub(1),
                1 => random.below(n + 1),
                2 => n,
                _ => n + random.below(more),
            };
            let sizes = Sizes { rest: near(added, 40), a: near(longest, 40), b: near(longest, 400), out: near(parts, 40) };
            let got = self.compare(session, true, &session.log, k as u64, &session.text, sizes).got;
            let enough = sizes.rest >= added && sizes.a >= longest && sizes.b >= longest && sizes.out >= parts;
            assert_eq!(got, if enough { Ok((added, parts)) } else { Err(Refusal::Room) });
        }
        whole
    }

    // Other texts, revisions that aren't there, and logs that can't be read, several at once.
    fn wrong(&mut self, session: &Session, random: &mut Random) {
        let count = session.history.len();
        for _ in 0..6 {
            let mut text = session.text.clone();
            match random.below(5) {
                0 => text.push(0x80 + random.below(128) as u8),
                1 => text.extend("ä".as_bytes()),
                2 => text = random.text(ot::num_chars(&session.text)).into_bytes(),
                _ => {}
            }
            let k = match random.below(4) {
                0 => [0, count as u64 + 1, count as u64 + 256, 1 << 16, 1 << 32, u64::MAX][random.below(6)],
                _ => random.below(count + 2) as u64,
            };
            let mut log = session.log.clone();
            if random.below(3) == 0 {
                log = damaged(&log, random);
            }
            // a log that is damaged and still readable is another session's
            let readable = log == session.log;
            if !readable && ot::summary(&log, &mut vec![0; ot::RECORD]) != Err(Refusal::Log) {
                continue;
            }
            let sizes = Sizes {
                rest: if readable { random.below(60) } else { 0 },
                a: random.below(200),
                b: random.below(200),
                out: random.below(200),
            };
            self.compare(session, readable, &log, k, &text, sizes);
        }
    }
}

fn random_session(random: &mut Random) -> Session {
    let n = random.below(12);
    let mut session = Session::new(random.text(n).into_bytes());
    for count in 0..1 + random.below(9) {
        let r = count - random.below(count + 1).min(random.below(5));
        let edit = edit(random, session.length_at(r));
        session.accept(&edit, r);
    }
    session
}

#[test]
fn an_undo_is_an_accept_of_the_inverse() {
    let mut random = Random(102);
    let mut tally = Tally::default();
    for _ in 0..6_000 {
        let mut session = random_session(&mut random);
        tally.wrong(&session, &mut random);
        // each revision in turn, all on the same log
        for k in 1..=session.history.len() {
            tally.revision(&session, k, &mut random);
        }
        // then some after one another, undos of undos among them
        for _ in 0..3 {
            let count = session.history.len();
            let k = 1 + random.below(count);
            let Outcome { got, log, out } = tally.revision(&session, k, &mut random);
            let (added, parts) = got.unwrap();
            let before = Session { text: session.text.clone(), log: session.log.clone(), history: session.history.clone() };
            let size = session.log.len() + added;
            session.history.push(log[session.log.len()..size].to_vec());
            session.log = log[..size].to_vec();
            copy_meets(&before, k, &out[..parts], &session);
        }
    }
    let Tally { calls, went, refused } = tally;
    println!("{calls} undos, the same as by the model; {went} went through; refused {refused:?} by number");
    assert!(went > calls / 8 && [3, 6, 7, 8, 10].iter().all(|n| refused[*n] > 500));
}

#[test]
fn the_newest_is_taken_back_and_brought_back() {
    let mut random = Random(1020);
    let wide = Sizes { rest: 2000, a: 4000, b: 4000, out: 0 };
    for _ in 0..20_000 {
        let mut session = random_session(&mut random);
        let count = session.history.len();
        let edited = played(&session);
        let before = session.history[..count - 1].iter().fold(session.text.clone(), |text, rec| applied(rec, &text));
        for text in [before, edited] {
            let newest = session.history.len();
            let Outcome { got, log, .. } = undone(&session.log, newest as u64, &session.text, wide);
            let (added, parts) = got.unwrap();
            assert_eq!(parts, 0);
            let size = session.log.len();
            session.history.push(log[size..size + added].to_vec());
            session.log = log[..size + added].to_vec();
            assert_eq!(played(&session), text);
        }
    }
}

// Long texts: an inverse just within and just over the limit, and rebased ones over it, with scratch buffers that hold the texts alone
// and such as hold the inverse, too.
#[test]
fn limits_are_those_of_the_inverse_and_of_accept() {
    let mut tally = Tally::default();
    for chars in [8191usize, 8192, 8193] {
        let mut session = Session::new("😀".repeat(chars).into_bytes());
        let mut delete = vec![0; 11];
        ot::delete(&ot::EMPTY, chars as u64, &mut delete).unwrap();
        session.accept(&delete, 0);
        let size = 4 * chars;
        for typed in [0usize, 1, 32_768 - chars, 32_769 - chars] {
            let mut log = session.log.clone();
            log.resize(log.len() + 40_000, 0);
            let mut insert = vec![0; ot::RECORD];
            let n = ot::insert(&ot::EMPTY, &vec![b'a'; typed], &mut insert).unwrap();
            let (added, _) = ot::accept(&insert[..n], 1, &mut log, &mut []).unwrap();
            log.truncate(session.log.len() + added);
            for (a, b) in [(size, size), (size, size + 11), (size + 11, size + 50), (size - 1, size), (size, size - 1)] {
                for (rest, out) in [(40_000, 40_000), (40_000, n - 1), (20, 40_000)] {
                    let got = undone(&log, 1, &session.text, Sizes { rest, a, b, out }).got;
                    let room = a >= size && b >= size;
                    let over = chars > 8192 || chars + typed > 32_768;
                    assert_eq!(
                        got.map_err(Refusal::number),
                        match () {
                            _ if !room => Err(10),
                            _ if over => Err(9),
                            _ if rest < 40_000 || out < 40_000 => Err(10),
                            _ => Ok((size + if typed == 0 { 11 } else { 14 }, n + 3)),
                        }
                    );
                }
            }
        }
    }
    // 256 revisions are the most
    let mut session = Session::new(b"x".to_vec());
    let mut keep = vec![0; 11];
    ot::retain(&ot::EMPTY, 1, &mut keep).unwrap();
    for r in 0..255 {
        session.accept(&keep, r);
    }
    let wide = Sizes { rest: 2000, a: 1, b: 1, out: 60_000 };
    for k in [1, 128, 255] {
        let Outcome { got, log, .. } = tally.compare(&session, true, &session.log, k, b"x", wide);
        let size = session.log.len() + got.unwrap().0;
        assert_eq!(undone(&log[..size], k, b"x", wide).got, Err(Refusal::Limit));
        assert_eq!(undone(&log[..size], 257, b"x", wide).got, Err(Refusal::Revision));
        assert_eq!(undone(&log[..size], k, b"x", Sizes { a: 0, ..wide }).got, Err(Refusal::Room));
        assert_eq!(undone(&log[..size], k, b"x", Sizes { rest: 0, ..wide }).got, Err(Refusal::Limit));
    }
}
