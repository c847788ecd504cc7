// Every call that the original has, against the original: values, counts, refusals, the bytes written and those left alone.
mod common;

#[cfg(original)]
extern crate operational_transform;

#[cfg(not(original))]
#[test]
fn skipped() {
    println!("skipped: the original isn't at {}; name it by OT_RS", env!("OT_RS_LOOKED_FOR"));
}

#[cfg(original)]
mod compared {
    use crate::common::{damaged, decode, Op, Random};
    use operational_transform::{Operation, OperationSeq};
    use ot::Refusal;
    use std::collections::BTreeSet;

    // How many calls were compared, and how many of them were refused with 8, 9 and 10.
    #[derive(Default)]
    struct Tally {
        calls: u64,
        refused: [u64; 3],
        // Of the calls, those whose answer M-101 gives and not the original.
        undoing: u64,
    }

    type Wanted = Result<Vec<u8>, u8>;

    fn text_bytes(s: &OperationSeq) -> usize {
        s.ops().iter().map(|o| if let Operation::Insert(t) = o { t.len() } else { 0 }).sum()
    }

    fn fits(s: &OperationSeq) -> bool {
        s.ops().len() <= 1024 && text_bytes(s) <= 32_768 && s.base_len() <= 32_768 && s.target_len() <= 32_768
    }

    fn encode(s: &OperationSeq) -> Vec<u8> {
        let mut bytes = Vec::new();
        for n in [s.ops().len(), text_bytes(s), s.base_len(), s.target_len()] {
            bytes.extend((n as u16).to_le_bytes());
        }
        bytes.extend(s.ops().iter().map(|o| match o {
            Operation::Retain(_) => 1,
            Operation::Insert(_) => 2,
            Operation::Delete(_) => 3,
        }));
        for o in s.ops() {
            let count = match o {
                Operation::Retain(n) | Operation::Delete(n) => *n as u16,
                Operation::Insert(t) => t.len() as u16,
            };
            bytes.extend(count.to_le_bytes());
        }
        for o in s.ops() {
            if let Operation::Insert(t) = o {
                bytes.extend(t.as_bytes());
            }
        }
        bytes
    }

    fn delivered(s: &OperationSeq) -> Wanted {
        if fits(s) {
            Ok(encode(s))
        } else {
            Err(9)
        }
    }

    fn number(r: Refusal) -> u8 {
        r.number()
    }

    impl Tally {
        fn count(&mut self, refusal: u8) {
            if refusal >= 8 {
                self.refused[refusal as usize - 8] += 1;
            }
        }

        fn fact<T: PartialEq + std::fmt::Debug>(&mut self, want: T, got: T) {
            self.calls += 1;
            assert_eq!(got, want);
        }

        // An output of just the size, one that is longer and one that is a byte too short.
        fn writes(&mut self, want: &Wanted, call: impl Fn(&mut [u8]) -> Result<usize, Refusal>) {
            let rooms: &[isize] = if want.is_ok() { &[0, 3, -1] } else { &[0] };
            for room in rooms {
                let size = want.as_ref().map_or(40, |w| w.len()) as isize + room;
                if size < 0 {
                    continue;
                }
                let mut out = vec![0xEE; size as usize];
                let got = call(&mut out).map_err(number);
                self.calls += 1;
                match want {
                    Ok(w) if *room >= 0 => {
                        assert_eq!(got, Ok(w.len()));
                        assert_eq!(out[..w.len()], w[..]);
                        assert!(out[w.len()..].iter().all(|b| *b == 0xEE));
                    }
                    _ => {
                        let refusal = want.as_ref().err().copied().unwrap_or(10);
                        self.count(refusal);
                        assert_eq!(got, Err(refusal));
                        assert!(out.iter().all(|b| *b == 0xEE));
                    }
                }
            }
        }

        fn transforms(&mut self, a: &[u8], b: &[u8], want: Result<(&OperationSeq, &OperationSeq), u8>) {
            let want = want.and_then(|(x, y)| Ok((delivered(x)?, delivered(y)?)));
            let rooms: &[(isize, isize)] = if want.is_ok() { &[(0, 0), (2, 1), (-1, 0), (0, -1)] } else { &[(0, 0)] };
            for (p, q) in rooms {
                let sizes = want.as_ref().map_or((40, 40), |(x, y)| (x.len() as isize, y.len() as isize));
                let mut x = vec![0xEE; (sizes.0 + p) as usize];
                let mut y = vec![0xEE; (sizes.1 + q) as usize];
                let got = ot::transform(a, b, &mut x, &mut y).map_err(number);
                self.calls += 1;
                match &want {
                    Ok((u, v)) if *p >= 0 && *q >= 0 => {
                        assert_eq!(got, Ok((u.len(), v.len())));
                        assert_eq!((&x[..u.len()], &y[..v.len()]), (&u[..], &v[..]));
                        assert!(x[u.len()..].iter().chain(&y[v.len()..]).all(|b| *b == 0xEE));
                    }
                    _ => {
                        let refusal = want.as_ref().err().copied().unwrap_or(10);
                        self.count(refusal);
                        assert_eq!(got, Err(refusal));
                        assert!(x.iter().chain(&y).all(|b| *b == 0xEE));
                    }
                }
            }
        }

        fn pair(&mut self, x: &OperationSeq, y: &OperationSeq, a: &[u8], b: &[u8]) {
            let composed = x.compose(y).map_err(|_| 8).and_then(|s| delivered(&s));
            self.writes(&composed, |out| ot::compose(a, b, out));
            match x.transform(y) {
                Ok((p, q)) => self.transforms(a, b, Ok((&p, &q))),
                Err(_) => self.transforms(a, b, Err(8)),
            }
        }

        fn facts(&mut self, s: &OperationSeq, rec: &[u8]) {
            self.fact(Ok(rec.len()), ot::check(rec).map_err(number));
            self.fact(Ok(s.base_len()), ot::base_len(rec).map_err(number));
            self.fact(Ok(s.target_len()), ot::target_len(rec).map_err(number));
            self.fact(Ok(s.is_noop()), ot::is_noop(rec).map_err(number));
            for (k, o) in s.ops().iter().enumerate().take(3) {
                let (kind, count, text) = match o {
                    Operation::Retain(n) => (ot::Kind::Retain, *n as usize, ""),
                    Operation::Insert(t) => (ot::Kind::Insert, t.len(), &t[..]),
                    Operation::Delete(n) => (ot::Kind::Delete, *n as usize, ""),
                };
                self.fact(Some((kind, count)), ot::step(rec, k));
                self.fact(text.as_bytes(), ot::insert_text(rec, k));
            }
            self.fact(None, ot::step(rec, s.ops().len()));
        }

        fn plays(&mut self, s: &OperationSeq, rec: &[u8], text: &str) {
            let applied = s.apply(text).map(String::into_bytes).map_err(|_| 8);
            self.writes(&applied, |out| ot::apply(rec, text.as_bytes(), out));
            // On a text of another length the original takes what it finds; ours is refused as apply is. And applied to what apply
            // gives, the inverse gives the text.
            let Ok(after) = applied else {
                self.writes(&Err(8), |out| ot::invert(rec, text.as_bytes(), out));
                self.undoing += 1;
                return;
            };
            let inverse = delivered(&s.invert(text));
            self.writes(&inverse, |out| ot::invert(rec, text.as_bytes(), out));
            if let Ok(undo) = inverse {
                let before = self.calls;
                self.writes(&Ok(text.as_bytes().to_vec()), |out| ot::apply(&undo, &after, out));
                self.undoing += self.calls - before;
            }
        }

        fn builds(&mut self, s: &OperationSeq, rec: &[u8], n: u64, text: &str) {
            let limited = |f: &dyn Fn(&mut OperationSeq)| {
                let mut t = s.clone();
                f(&mut t);
                delivered(&t)
            };
            // the original's sums overflow where the count is far over the limit
            let over = n > 32_768;
            let retained = if over { Err(9) } else { limited(&|t| t.retain(n)) };
            self.writes(&retained, |out| ot::retain(rec, n, out));
            let deleted = if over { Err(9) } else { limited(&|t| t.delete(n)) };
            self.writes(&deleted, |out| ot::delete(rec, n, out));
            let inserted = limited(&|t| t.insert(text));
            self.writes(&inserted, |out| ot::insert(rec, text.as_bytes(), out));
        }
    }

    fn seq(ops: &[Op]) -> OperationSeq {
        let mut s = OperationSeq::default();
        for o in ops {
            match o {
                Op::Retain(n) => s.retain(*n as u64),
                Op::Insert(t) => s.insert(t),
                Op::Delete(n) => s.delete(*n as u64),
            }
        }
        s
    }

    // All sequences with this base that insert at most one character at each place.
    fn small(base: usize) -> Vec<(OperationSeq, Vec<u8>)> {
        let mut found = BTreeSet::new();
        let mut all = Vec::new();
        let choices = 2usize.pow(base as u32) * 4usize.pow(base as u32 + 1);
        for mut choice in 0..choices {
            let mut ops = Vec::new();
            for i in 0..=base {
                if let Some(c) = [None, Some("a"), Some("ä"), Some("😀")][choice % 4] {
                    ops.push(Op::Insert(c.to_owned()));
                }
                choice /= 4;
                if i < base {
                    ops.push(if choice % 2 == 0 { Op::Retain(1) } else { Op::Delete(1) });
                    choice /= 2;
                }
            }
            let s = seq(&ops);
            let rec = encode(&s);
            if found.insert(rec.clone()) {
                all.push((s, rec));
            }
        }
        all
    }

    #[test]
    fn all_small_sequences_in_pairs() {
        let mut tally = Tally::default();
        let sets: Vec<_> = (0..=3).map(small).collect();
        let texts = ["", "a", "ä", "😀", "aä", "ää", "😀a", "aäb", "ä😀ä", "abcd"];
        for (s, rec) in sets.iter().flatten() {
            tally.facts(s, rec);
            for text in texts {
                tally.plays(s, rec, text);
            }
            for (n, text) in [(0, ""), (1, "ä"), (32_768, "xy"), (32_769, "a"), (u64::MAX, "😀")] {
                tally.builds(s, rec, n, text);
            }
        }
        for x in sets.iter().flatten() {
            for y in sets.iter().flatten() {
                tally.pair(&x.0, &y.0, &x.1, &y.1);
            }
        }
        println!(
            "compared with the original: {} calls on {} small sequences and all their pairs; with M-101: {}",
            tally.calls - tally.undoing,
            sets.iter().flatten().count(),
            tally.undoing
        );
        assert!(tally.calls > 1_000_000);
    }

    // Operations that take `base` characters, about `records` of them.
    fn random_ops(random: &mut Random, base: usize, records: usize, insert: usize) -> Vec<Op> {
        let mut ops = Vec::new();
        let mut left = base;
        while left > 0 {
            let most = (2 * base / records.max(1)).max(1);
            let n = (1 + random.below(most)).min(left);
            match random.below(3) {
                0 => {
                    let n = random.length(insert);
                    ops.push(Op::Insert(random.text(n)))
                }
                1 => {
                    ops.push(Op::Retain(n));
                    left -= n;
                }
                _ => {
                    ops.push(Op::Delete(n));
                    left -= n;
                }
            }
        }
        if random.below(3) == 0 {
            let n = random.length(insert);
            ops.push(Op::Insert(random.text(n)));
        }
        ops
    }

    #[test]
    fn random_sequences_to_every_limit() {
        let mut tally = Tally::default();
        let mut random = Random(20_261_115);
        for round in 0..60_000 {
            // short ones as a rule; at times up to 1,024 records, 32,768 characters and 32,768 bytes
            let (base, records, insert) = match round % 100 {
                0 => (32_700 + random.below(69), 1 + random.below(1100), 60),
                1 => (random.below(3000), 900 + random.below(300), 4),
                // two halves of a limit, so that results pass it
                13..=16 => (1200 + random.below(800), 500 + random.below(200), 3),
                17..=19 => (random.below(20), 6, 9000),
                2 => (random.below(40), 10, 8200),
                3..=12 => (random.below(900), 1 + random.below(200), 20),
                _ => (random.below(30), 1 + random.below(8), 6),
            };
            let x = seq(&random_ops(&mut random, base, records, insert));
            let y = seq(&random_ops(&mut random, base, records, insert));
            let z = seq(&random_ops(&mut random, x.target_len(), records, insert));
            if !(fits(&x) && fits(&y) && fits(&z)) {
                continue;
            }
            let (a, b, c) = (encode(&x), encode(&y), encode(&z));
            tally.facts(&x, &a);
            tally.pair(&x, &y, &a, &b);
            tally.pair(&x, &z, &a, &c);
            let short = random.below(base + 1);
            let long = base + random.below(4);
            for chars in [base, short, long] {
                let text = random.text(chars);
                tally.plays(&x, &a, &text);
            }
            let n = [0, 1, 5, 32_768 - base.min(32_768) as u64, 32_769 - base.min(32_768) as u64, u64::MAX][random.below(6)];
            let n_text = random.length(insert);
            let text = random.text(n_text);
            tally.builds(&x, &a, n, &text);
        }
        // made by hand: one short of each limit, exact and one over
        for (n, m) in [(32_767, 1), (32_768, 0), (32_768, 1), (32_767, 2)] {
            let s = seq(&[Op::Retain(n)]);
            tally.builds(&s, &encode(&s), m, "a");
            let t = "a".repeat(n);
            let s = seq(&[Op::Insert(t.clone())]);
            tally.builds(&s, &encode(&s), m, &"b".repeat(m as usize));
            let d = seq(&[Op::Delete(n)]);
            tally.builds(&d, &encode(&d), m, "ä");
            tally.plays(&d, &encode(&d), &"a".repeat(n));
            tally.plays(&d, &encode(&d), &"ä".repeat(n));
        }
        for records in [1023, 1024] {
            let ops: Vec<_> = (0..records).map(|i| if i % 2 == 0 { Op::Retain(1) } else { Op::Delete(1) }).collect();
            let s = seq(&ops);
            for (n, text) in [(1, "x"), (0, ""), (2, "y")] {
                tally.builds(&s, &encode(&s), n, text);
            }
            let whole = seq(&[
                Op::Insert("q".into()),
                Op::Delete(s.base_len() / 2),
                Op::Insert("r".into()),
                Op::Retain(s.base_len() - s.base_len() / 2),
            ]);
            tally.pair(&s, &whole, &encode(&s), &encode(&whole));
            tally.pair(&whole, &s, &encode(&whole), &encode(&s));
        }
        println!(
            "compared with the original: {} calls on random sequences; with M-101: {}; refused with 8, 9 and 10: {:?}",
            tally.calls - tally.undoing,
            tally.undoing,
            tally.refused
        );
        assert!(tally.refused.iter().all(|n| *n > 1000));
    }

    #[test]
    fn damaged_records() {
        let mut tally = Tally::default();
        let mut random = Random(42);
        let mut refused = [0u64; 6];
        for round in 0..300_000 {
            let base = random.below(if round % 50 == 0 { 900 } else { 12 });
            let good = encode(&seq(&random_ops(&mut random, base, 6, 4)));
            let other = encode(&seq(&random_ops(&mut random, base, 6, 4)));
            let bad = damaged(&good, &mut random);
            match decode(&bad) {
                Err(n) => {
                    refused[n as usize] += 1;
                    let want: Wanted = Err(n);
                    tally.fact(Err(n), ot::check(&bad).map_err(number));
                    tally.fact(Err(n), ot::base_len(&bad).map_err(number));
                    tally.fact(Err(n), ot::target_len(&bad).map_err(number));
                    tally.fact(Err(n), ot::is_noop(&bad).map_err(number));
                    tally.fact(None, ot::step(&bad, 0));
                    tally.fact(&b""[..], ot::insert_text(&bad, 0));
                    tally.writes(&want, |out| ot::retain(&bad, 1, out));
                    tally.writes(&want, |out| ot::delete(&bad, u64::MAX, out));
                    tally.writes(&want, |out| ot::insert(&bad, b"\xFF", out));
                    tally.writes(&want, |out| ot::apply(&bad, b"\xFF", out));
                    tally.writes(&want, |out| ot::invert(&bad, b"\xFF", out));
                    tally.writes(&want, |out| ot::compose(&bad, &other, out));
                    tally.writes(&want, |out| ot::compose(&other, &bad, out));
                    tally.transforms(&bad, &other, Err(n));
                    tally.transforms(&other, &bad, Err(n));
                }
                Ok((ops, size)) => {
                    refused[0] += 1;
                    let s = seq(&ops);
                    assert_eq!(encode(&s), bad[..size]);
                    tally.fact(Ok(size), ot::check(&bad).map_err(number));
                    let (ops, _) = decode(&other).unwrap();
                    tally.pair(&s, &seq(&ops), &bad, &other);
                    let text = random.text(base);
                    tally.plays(&s, &bad, &text);
                    tally.writes(&Err(3), |out| ot::apply(&bad, b"\xED\xA0\x80", out));
                    tally.writes(&Err(3), |out| ot::insert(&bad, b"\xC0\x80", out));
                }
            }
        }
        assert!(refused.iter().all(|n| *n > 100), "{refused:?}");
        println!("compared: {} calls on damaged records; found whole, then refusals 1 to 5: {refused:?}", tally.calls);
    }

    #[test]
    fn characters() {
        let mut tally = Tally::default();
        let mut random = Random(7);
        let one = |tally: &mut Tally, bytes: &[u8]| {
            tally.fact(std::str::from_utf8(bytes).is_ok(), ot::well_formed(bytes));
            let chars = bytes.iter().filter(|b| (**b as i8) >= -0x40).count();
            tally.fact(chars, ot::num_chars(bytes));
        };
        for a in 0..=255u8 {
            one(&mut tally, &[a]);
            for b in 0..=255u8 {
                one(&mut tally, &[a, b]);
                for c in [0x00, 0x7F, 0x80, 0x8F, 0x90, 0x9F, 0xA0, 0xBF, 0xC0, 0xFF] {
                    one(&mut tally, &[a, b, c]);
                    one(&mut tally, &[a, b, c, 0x80]);
                    one(&mut tally, &[a, b, c, 0xBF, b'x']);
                }
            }
        }
        for _ in 0..20_000 {
            let n = random.below(300);
            let mut bytes = random.text(n).into_bytes();
            one(&mut tally, &bytes);
            if !bytes.is_empty() {
                let i = random.below(bytes.len());
                bytes[i] = random.next() as u8;
                one(&mut tally, &bytes);
            }
        }
        println!("compared with the standard library: {} calls on bytes", tally.calls);
    }
}
