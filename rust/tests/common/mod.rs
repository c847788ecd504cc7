// Random numbers, texts, records and an independent check of records, for the tests.
#![allow(dead_code)]

pub struct Random(pub u64);

impl Random {
    pub fn next(&mut self) -> u64 {
        self.0 ^= self.0 << 13;
        self.0 ^= self.0 >> 7;
        self.0 ^= self.0 << 17;
        self.0.wrapping_mul(0x2545_F491_4F6C_DD1D)
    }

    pub fn below(&mut self, n: usize) -> usize {
        (self.next() >> 33) as usize % n
    }

    pub fn letter(&mut self) -> char {
        const LETTERS: [char; 12] =
            ['a', 'b', ' ', '\u{7F}', 'ä', '\u{80}', '\u{7FF}', '€', '\u{D7FF}', '\u{E000}', '😀', '\u{10FFFF}'];
        LETTERS[self.below(LETTERS.len())]
    }

    pub fn text(&mut self, chars: usize) -> String {
        (0..chars).map(|_| self.letter()).collect()
    }

    // A length that is short as a rule and long at times.
    pub fn length(&mut self, most: usize) -> usize {
        let most = match self.below(8) {
            0 => most,
            1 | 2 => most.min(40),
            _ => most.min(5),
        };
        1 + self.below(most)
    }
}

#[derive(Clone, Debug, PartialEq, Eq)]
pub enum Op {
    Retain(usize),
    Insert(String),
    Delete(usize),
}

fn word(bytes: &[u8], at: usize) -> usize {
    bytes[at] as usize + 256 * bytes[at + 1] as usize
}

// The record's operations, or the lowest refusal that is found in it: written from the specification, by other means than the
// library.
pub fn decode(rec: &[u8]) -> Result<(Vec<Op>, usize), u8> {
    if rec.len() < 8 {
        return Err(1);
    }
    let (n, text, base, target) = (word(rec, 0), word(rec, 2), word(rec, 4), word(rec, 6));
    let size = 8 + 3 * n + text;
    if n > 1024 || text > 32_768 || base > 32_768 || target > 32_768 || rec.len() < size {
        return Err(1);
    }
    let kinds = &rec[8..8 + n];
    let counts: Vec<usize> = (0..n).map(|k| word(rec, 8 + n + 2 * k)).collect();
    let inserts: usize = (0..n).filter(|k| kinds[*k] == 2).map(|k| counts[k]).sum();
    if kinds.iter().any(|k| !(1..=3).contains(k)) || counts.contains(&0) || inserts != text {
        return Err(2);
    }
    let mut at = 8 + 3 * n;
    let mut ops = Vec::new();
    for k in 0..n {
        ops.push(match kinds[k] {
            1 => Op::Retain(counts[k]),
            2 => {
                let bytes = &rec[at..at + counts[k]];
                at += counts[k];
                Op::Insert(std::str::from_utf8(bytes).map_err(|_| 3)?.to_owned())
            }
            _ => Op::Delete(counts[k]),
        });
    }
    if kinds.windows(2).any(|w| w[0] == w[1] || w == [3, 2]) {
        return Err(4);
    }
    let takes: usize = ops.iter().map(|o| if let Op::Retain(n) | Op::Delete(n) = o { *n } else { 0 }).sum();
    let gives: usize = ops
        .iter()
        .map(|o| match o {
            Op::Retain(n) => *n,
            Op::Insert(s) => s.chars().count(),
            Op::Delete(_) => 0,
        })
        .sum();
    if takes != base || gives != target {
        return Err(5);
    }
    Ok((ops, size))
}

// A copy with some bytes changed, cut off or added.
pub fn damaged(rec: &[u8], random: &mut Random) -> Vec<u8> {
    let mut bytes = rec.to_vec();
    for _ in 0..1 + random.below(3) {
        match random.below(6) {
            0 => bytes.truncate(random.below(bytes.len() + 1)),
            1 => bytes.push(random.next() as u8),
            2 if !bytes.is_empty() => {
                let i = random.below(bytes.len());
                bytes.swap(i, 0);
            }
            _ if !bytes.is_empty() => {
                let i = random.below(bytes.len().min(24));
                bytes[i] = if random.below(2) == 0 { random.below(5) as u8 } else { random.next() as u8 };
            }
            _ => {}
        }
    }
    bytes
}
