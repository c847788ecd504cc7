//! Writes the list of calls and of the original's answers that the program `vectors` replays: files `part_1`, `part_2` and so on, of
//! at most 131,072 bytes, into the directory that is its argument, which is crates/vectors/data (crates/vectors/args
//! names them). Every answer is the original's, or a refusal that the specification adds to it: none of the proved calls is made.
//!
//! A part is cases end to end; numbers are low byte first. A case:
//!   1 byte: the call: 1 retain, 2 delete, 3 insert, 4 apply, 5 invert, 6 compose, 7 transform, 8 base_len, 9 target_len, 10 is_noop
//!   1 byte: the refusal's number, or 0
//!   2 bytes each: the sizes of the first and the second operand, of the first and the second output, and of what is written to them
//!   the first operand: a record
//!   the second: a text, a record, or the 8 bytes of the number of retain and delete
//!   what is written to the first output, and to the second
//! The calls 8 to 10 have no output: what would be written is the number asked for, in 2 bytes; 1 or 0 for is_noop.
#[cfg(original)]
extern crate operational_transform;

#[cfg(original)]
#[path = "../../tests/common/mod.rs"]
mod common;

#[cfg(not(original))]
fn main() {
    println!("skipped: the original isn't at {}; name it by OT_RS", env!("OT_RS_LOOKED_FOR"));
}

#[cfg(original)]
fn main() {
    let directory = std::env::args().nth(1).expect("the directory for the parts");
    list::write(std::path::Path::new(&directory));
}

#[cfg(original)]
mod list {
    use crate::common::{Op, Random};
    use operational_transform::{Operation, OperationSeq};
    use std::collections::{BTreeMap, BTreeSet};
    use std::fs;
    use std::path::Path;

    const PART: usize = 131_072;
    const NAMES: [&str; 10] =
        ["retain", "delete", "insert", "apply", "invert", "compose", "transform", "base_len", "target_len", "is_noop"];
    const RETAIN: u8 = 1;
    const DELETE: u8 = 2;
    const INSERT: u8 = 3;
    const APPLY: u8 = 4;
    const INVERT: u8 = 5;
    const COMPOSE: u8 = 6;
    const TRANSFORM: u8 = 7;
    const BASE_LEN: u8 = 8;
    const TARGET_LEN: u8 = 9;
    const IS_NOOP: u8 = 10;

    type Wanted = Result<Vec<u8>, u8>;

    fn inserted(s: &OperationSeq) -> String {
        let texts = s.ops().iter().map(|o| if let Operation::Insert(t) = o { t } else { "" });
        texts.collect()
    }

    // The record, or 9 where the sequence passes a limit.
    fn record(s: &OperationSeq) -> Wanted {
        let text = inserted(s);
        let sizes = [s.ops().len(), text.len(), s.base_len(), s.target_len()];
        if sizes[0] > 1024 || sizes[1..].iter().any(|n| *n > 32_768) {
            return Err(9);
        }
        let each = s.ops().iter().map(|o| match o {
            Operation::Retain(n) => (1, *n as u16),
            Operation::Insert(t) => (2, t.len() as u16),
            Operation::Delete(n) => (3, *n as u16),
        });
        let mut bytes: Vec<u8> = sizes.iter().flat_map(|n| (*n as u16).to_le_bytes()).collect();
        bytes.extend(each.clone().map(|(kind, _)| kind));
        bytes.extend(each.flat_map(|(_, count)| count.to_le_bytes()));
        bytes.extend(text.bytes());
        Ok(bytes)
    }

    fn seq(ops: &[Op]) -> OperationSeq {
        let mut s = OperationSeq::default();
        for o in ops {
            match o {
                Op::Retain(n) => s.retain(*n as u64),
                Op::Insert(t) => s.insert(t),
                Op::Delete(n) => s.delete(*n as u64),
            }
        }
        s
    }

    fn text(random: &mut Random, chars: usize) -> String {
        (0..chars).map(|_| ['a', 'ä', '😀'][random.below(3)]).collect()
    }

    // Operations that take `base` characters, with inserts of up to `insert` characters between them.
    fn random_seq(random: &mut Random, base: usize, step: usize, insert: usize) -> OperationSeq {
        let mut s = OperationSeq::default();
        while s.base_len() < base {
            let n = (1 + random.below(step)).min(base - s.base_len()) as u64;
            match random.below(3) {
                0 => {
                    let chars = 1 + random.below(insert);
                    s.insert(&text(random, chars));
                }
                1 => s.retain(n),
                _ => s.delete(n),
            }
        }
        if random.below(3) == 0 {
            let chars = 1 + random.below(insert);
            s.insert(&text(random, chars));
        }
        s
    }

    // All sequences with this base that insert at most one character at each place.
    fn small(base: usize) -> Vec<OperationSeq> {
        let mut found = BTreeSet::new();
        let mut all = Vec::new();
        for mut choice in 0..2usize.pow(base as u32) * 4usize.pow(base as u32 + 1) {
            let mut s = OperationSeq::default();
            for i in 0..=base {
                s.insert(["", "a", "ä", "😀"][choice % 4]);
                choice /= 4;
                if i < base {
                    if choice % 2 == 0 {
                        s.retain(1);
                    } else {
                        s.delete(1);
                    }
                    choice /= 2;
                }
            }
            if found.insert(record(&s)) {
                all.push(s);
            }
        }
        all
    }

    #[derive(Default)]
    struct List {
        parts: Vec<Vec<u8>>,
        cases: usize,
        // by call and refusal
        tally: BTreeMap<(u8, u8), usize>,
        // how often an output of each size was taken
        turn: usize,
    }

    impl List {
        fn case(&mut self, call: u8, a: &[u8], b: &[u8], rooms: (usize, usize), want: &Result<(&[u8], &[u8]), u8>) {
            let (refusal, (x, y)) = want.map_or_else(|n| (n, (&b""[..], &b""[..])), |w| (0, w));
            let mut bytes = vec![call, refusal];
            for n in [a.len(), b.len(), rooms.0, rooms.1, x.len(), y.len()] {
                bytes.extend(u16::try_from(n).unwrap().to_le_bytes());
            }
            for operand in [a, b, x, y] {
                bytes.extend(operand);
            }
            if self.parts.last().map_or(true, |p| p.len() + bytes.len() > PART) {
                self.parts.push(Vec::new());
            }
            self.parts.last_mut().unwrap().extend(bytes);
            self.cases += 1;
            *self.tally.entry((call, refusal)).or_default() += 1;
        }

        // Outputs by turns: of just the size, longer, and a byte too short, which gets 10.
        fn writes(&mut self, call: u8, a: &[u8], b: &[u8], want: &Wanted) {
            let turn = self.turn % 4;
            self.turn += 1;
            match want {
                Err(n) => self.case(call, a, b, (turn * 13, 0), &Err(*n)),
                Ok(x) if turn == 3 && !x.is_empty() => self.case(call, a, b, (x.len() - 1, 0), &Err(10)),
                Ok(x) => self.case(call, a, b, (x.len() + [0, 5, 0, 0][turn], 0), &Ok((x, b""))),
            }
        }

        fn pair(&mut self, s: &OperationSeq, t: &OperationSeq) {
            self.composed(s, t);
            self.transformed(s, t);
        }

        fn composed(&mut self, s: &OperationSeq, t: &OperationSeq) {
            let (a, b) = (record(s).unwrap(), record(t).unwrap());
            let want = s.compose(t).map_err(|_| 8).and_then(|c| record(&c));
            self.writes(COMPOSE, &a, &b, &want);
        }

        fn transformed(&mut self, s: &OperationSeq, t: &OperationSeq) {
            let (a, b) = (record(s).unwrap(), record(t).unwrap());
            let want = s.transform(t).map_err(|_| 8).and_then(|(x, y)| Ok((record(&x)?, record(&y)?)));
            let turn = self.turn % 7;
            self.turn += 1;
            match &want {
                Err(n) => self.case(TRANSFORM, &a, &b, (turn * 7, turn), &Err(*n)),
                Ok((x, y)) if turn == 2 => self.case(TRANSFORM, &a, &b, (x.len() - 1, y.len()), &Err(10)),
                Ok((x, y)) if turn == 4 => self.case(TRANSFORM, &a, &b, (x.len(), y.len() - 1), &Err(10)),
                Ok((x, y)) => self.case(TRANSFORM, &a, &b, (x.len() + turn, y.len() + 2 * turn), &Ok((x, y))),
            }
        }

        fn facts(&mut self, s: &OperationSeq) {
            let a = record(s).unwrap();
            for (call, fact) in [(BASE_LEN, s.base_len()), (TARGET_LEN, s.target_len()), (IS_NOOP, s.is_noop() as usize)] {
                self.case(call, &a, b"", (0, 0), &Ok((&(fact as u16).to_le_bytes(), b"")));
            }
        }

        fn counted(&mut self, call: u8, s: &OperationSeq, n: u64) {
            let mut t = s.clone();
            // far over the limit the original's sums overflow: document 01 has 9 for them
            let want = if n > 32_768 {
                Err(9)
            } else {
                if call == RETAIN {
                    t.retain(n);
                } else {
                    t.delete(n);
                }
                record(&t)
            };
            self.writes(call, &record(s).unwrap(), &n.to_le_bytes(), &want);
        }

        fn inserts(&mut self, s: &OperationSeq, text: &str) {
            let mut t = s.clone();
            t.insert(text);
            self.writes(INSERT, &record(s).unwrap(), text.as_bytes(), &record(&t));
        }

        fn builds(&mut self, s: &OperationSeq, n: u64, text: &str) {
            self.counted(RETAIN, s, n);
            self.counted(DELETE, s, n);
            self.inserts(s, text);
        }

        fn applied(&mut self, s: &OperationSeq, text: &str) {
            let want = s.apply(text).map(String::into_bytes).map_err(|_| 8);
            self.writes(APPLY, &record(s).unwrap(), text.as_bytes(), &want);
        }

        // On a text of another length the original takes what it finds, and ours is refused: not matched.
        fn inverted(&mut self, s: &OperationSeq, text: &str) {
            if text.chars().count() != s.base_len() {
                return;
            }
            self.writes(INVERT, &record(s).unwrap(), text.as_bytes(), &record(&s.invert(text)));
        }

        fn plays(&mut self, s: &OperationSeq, text: &str) {
            self.applied(s, text);
            self.inverted(s, text);
        }
    }

    fn small_ones(list: &mut List) {
        let sets: Vec<_> = (0..=2).map(small).collect();
        let short: Vec<_> = sets[..2].iter().flatten().collect();
        for s in &short {
            list.facts(s);
            for (n, text) in [(0, ""), (1, "ä"), (2, "😀a")] {
                list.builds(s, n, text);
            }
            for text in ["", "a", "ä", "😀", "aä"] {
                list.plays(s, text);
            }
        }
        for (i, s) in short.iter().enumerate() {
            for (j, t) in short.iter().enumerate() {
                if s.target_len() == t.base_len() || (i + j) % 11 == 0 {
                    list.composed(s, t);
                }
                if s.base_len() == t.base_len() && (i + j) % 2 == 0 || (i + 3 * j) % 11 == 0 {
                    list.transformed(s, t);
                }
            }
        }
        let mut random = Random(20_261_116);
        for (i, s) in sets[2].iter().enumerate() {
            if i % 4 == 0 {
                list.facts(s);
                list.builds(s, i as u64 % 3, ["a", "ä😀", ""][i / 4 % 3]);
            }
            list.plays(s, ["aä", "😀a", "ä😀", "ä", "aaa"][i % 5]);
            if 3 <= i % 5 {
                list.inverted(s, ["äa", "a😀"][i % 2]);
            }
            let t = &sets[2][random.below(sets[2].len())];
            list.transformed(s, t);
            let next = &sets[s.target_len().min(2)];
            list.composed(s, &next[random.below(next.len())]);
        }
    }

    fn random_ones(list: &mut List) {
        let mut random = Random(20_261_117);
        for round in 0..78 {
            let (base, step, insert) = match round % 26 {
                0 => (60 + random.below(120), 9, 12),
                1 => (random.below(24), 4, 20),
                _ => (random.below(13), 1 + random.below(5), 4),
            };
            let s = random_seq(&mut random, base, step, insert);
            let t = random_seq(&mut random, base, step, insert);
            let u = random_seq(&mut random, s.target_len(), step, insert);
            list.facts(&s);
            list.transformed(&s, &t);
            list.composed(&s, &u);
            let play = text(&mut random, base);
            list.plays(&s, &play);
            if round % 3 == 0 {
                let chars = random.below(base + 4);
                let play = text(&mut random, chars);
                list.plays(&t, &play);
                list.pair(&s, &u);
            }
            let n = [1, 7, 300, u64::MAX][random.below(4)];
            let chars = random.below(insert + 1);
            let play = text(&mut random, chars);
            list.builds(&s, n, &play);
        }
    }

    // One short of 32,768 characters before or after, exact, and one over.
    fn long_bases(list: &mut List) {
        let (r, d, i) = (Op::Retain, Op::Delete, |t: &str| Op::Insert(t.to_owned()));
        for n in [32_767, 32_768, 32_769, 65_535, 65_536, 1 << 32, u64::MAX] {
            for ops in [vec![], vec![i("ä")], vec![r(1)], vec![d(1)]] {
                list.counted(RETAIN, &seq(&ops), n);
                list.counted(DELETE, &seq(&ops), n);
            }
        }
        for n in [32_766, 32_767, 32_768] {
            for ops in [vec![r(n)], vec![d(n)], vec![r(n - 1), i("😀")], vec![r(n - 5), d(5)], vec![i("ä"), d(n)]] {
                let s = seq(&ops);
                list.facts(&s);
                for (m, text) in [(0, ""), (1, "a"), (2, "ä😀")] {
                    list.builds(&s, m, text);
                }
                list.applied(&s, "a");
            }
            let one = seq(&[i("a"), r(n - 1)]);
            for ops in [vec![i("😀"), r(n - 1)], vec![r(n - 1), i("aä")], vec![d(1), r(n - 2), i("a")], vec![d(n - 1), i("ä")]]
            {
                let s = seq(&ops);
                if record(&s).is_ok() {
                    list.transformed(&one, &s);
                    list.transformed(&s, &one);
                }
            }
            for ops in [vec![r(n), i("a")], vec![i("ä"), d(1), r(n - 1)], vec![d(n - 1), r(1)], vec![r(n)]] {
                let s = seq(&ops);
                if record(&s).is_ok() {
                    list.composed(&one, &s);
                }
            }
            if n == 32_768 {
                list.turn = 0;
                list.inverted(&seq(&[d(1), r(n - 2), i("ä"), d(1)]), &"a".repeat(n));
            }
            // only the first takes characters of the text before
            list.composed(&seq(&[d(n), i("aä")]), &seq(&[d(1), r(1), i("😀")]));
            list.composed(&seq(&[d(n)]), &seq(&[i("a")]));
        }
    }

    // (retain 1, delete m) over and over, `operations` in all.
    fn fence(operations: usize, m: usize) -> OperationSeq {
        let ops: Vec<_> = (0..operations).map(|k| if k % 2 == 0 { Op::Retain(1) } else { Op::Delete(m) }).collect();
        seq(&ops)
    }

    // Results of 1,023, 1,024 and 1,025 operations.
    fn many_operations(list: &mut List) {
        let mut random = Random(20_261_118);
        for operations in [1023, 1024] {
            let s = fence(operations, 1);
            list.turn = 0;
            list.builds(&s, 1, "😀");
            list.turn = 0;
            list.composed(&s, &seq(&[Op::Insert("ä".into()), Op::Retain(s.target_len())]));
        }
        let play = text(&mut random, 1024);
        list.turn = 0;
        list.plays(&fence(1024, 1), &play);
        for operations in [1022, 1023] {
            let s = fence(operations, 2);
            let t = seq(&[Op::Retain(2), Op::Insert("a".into()), Op::Retain(s.base_len() - 2)]);
            list.turn = 0;
            list.transformed(&s, &t);
            list.turn = 0;
            list.transformed(&t, &s);
        }
    }

    // Results with 32,768 and 32,769 bytes of text, and a text of more bytes. To keep the list short, the exact ones of invert and
    // compose go to an output a byte too short: 10 and not 9.
    fn long_texts(list: &mut List) {
        let long = |chars: usize| "😀".repeat(chars);
        for more in ["a", "ä"] {
            list.turn = 0;
            list.inserts(&seq(&[Op::Insert(long(8191) + "aaa")]), more);
        }
        for (text, base) in [(long(8192), 8192), (long(8192) + "a", 8193)] {
            list.turn = 3;
            list.inverted(&seq(&[Op::Delete(base)]), &text);
        }
        for (text, chars) in [(long(4096), 4096), (long(4096) + "a", 4097)] {
            list.turn = 3;
            list.composed(&seq(&[Op::Insert(text)]), &seq(&[Op::Retain(chars), Op::Insert(long(4096))]));
        }
        list.turn = 0;
        list.applied(&seq(&[Op::Delete(8192), Op::Retain(1)]), &long(8193));
    }

    pub fn write(directory: &Path) {
        let mut list = List::default();
        for add in [small_ones, random_ones, long_bases, many_operations, long_texts] {
            add(&mut list);
        }
        for (k, part) in list.parts.iter().enumerate() {
            fs::write(directory.join(format!("part_{}", k + 1)), part).expect("the directory takes a file");
        }
        println!("| call | cases | answered | 8 | 9 | 10 |\n|---|---|---|---|---|---|");
        let number = |call, refusal| list.tally.get(&(call, refusal)).copied().unwrap_or(0);
        for (name, call) in NAMES.iter().zip(1..) {
            let [answered, lengths, limit, room] = [0, 8, 9, 10].map(|refusal| number(call, refusal));
            println!("| {name} | {} | {answered} | {lengths} | {limit} | {room} |", answered + lengths + limit + room);
        }
        let bytes: usize = list.parts.iter().map(Vec::len).sum();
        println!("{} cases, {} parts, {bytes} bytes", list.cases, list.parts.len());
    }
}
