//! Safe calls into the proved editing core.
//!
//! A sequence of operations is a byte record, a session is a log; both are slices that the caller lends. Every call takes any
//! bytes at all and gives a result or a [`Refusal`]; a refusal changes no output and no log. Results stand at the front of their
//! buffer, and bytes behind them stay as they were.
use std::fmt;

/// The most bytes that a record takes, that a log takes, and that the counterparts of one accept or undo take.
pub const RECORD: usize = 8 + 3 * 1024 + 32_768;
pub const LOG: usize = 4 + 256 * RECORD;
pub const COUNTERPARTS: usize = 255 * RECORD;

/// A record's list has no more bytes than this: two brackets, at most seven bytes for each operation and six for each byte of text.
pub const JSON: usize = 2 + 7 * 1024 + 6 * 32_768;

/// The record of the sequence that does nothing to the empty text; the builders begin with it.
pub const EMPTY: [u8; 8] = [0; 8];

mod sys {
    extern "C" {
        pub fn ot_well_formed(text: *const u8, text_len: usize) -> u64;
        pub fn ot_num_chars(bytes: *const u8, bytes_len: usize) -> u64;
        pub fn ot_check(rec: *const u8, rec_len: usize) -> u64;
        pub fn ot_base_len(rec: *const u8, rec_len: usize) -> u64;
        pub fn ot_target_len(rec: *const u8, rec_len: usize) -> u64;
        pub fn ot_is_noop(rec: *const u8, rec_len: usize) -> u64;
        pub fn ot_step(rec: *const u8, rec_len: usize, at: u64) -> u64;
        pub fn ot_insert_text(rec: *const u8, rec_len: usize, k: u64) -> u64;
        pub fn ot_retain(rec: *const u8, rec_len: usize, n: u64, out: *mut u8, out_len: usize) -> u64;
        pub fn ot_delete(rec: *const u8, rec_len: usize, n: u64, out: *mut u8, out_len: usize) -> u64;
        pub fn ot_insert(rec: *const u8, rec_len: usize, text: *const u8, text_len: usize, out: *mut u8, out_len: usize) -> u64;
        pub fn ot_from_json(list: *const u8, list_len: usize, out: *mut u8, out_len: usize) -> u64;
        pub fn ot_to_json(rec: *const u8, rec_len: usize, out: *mut u8, out_len: usize) -> u64;
        pub fn ot_apply(rec: *const u8, rec_len: usize, text: *const u8, text_len: usize, out: *mut u8, out_len: usize) -> u64;
        pub fn ot_invert(rec: *const u8, rec_len: usize, text: *const u8, text_len: usize, out: *mut u8, out_len: usize) -> u64;
        pub fn ot_compose(a: *const u8, a_len: usize, b: *const u8, b_len: usize, out: *mut u8, out_len: usize) -> u64;
        pub fn ot_transform(
            a: *const u8,
            a_len: usize,
            b: *const u8,
            b_len: usize,
            out_a: *mut u8,
            out_a_len: usize,
            out_b: *mut u8,
            out_b_len: usize,
        ) -> u64;
        pub fn ot_open(start: u64, log: *mut u8, log_len: usize) -> u64;
        pub fn ot_accept(
            edit: *const u8,
            edit_len: usize,
            r: u64,
            log: *mut u8,
            log_len: usize,
            out: *mut u8,
            out_len: usize,
        ) -> u64;
        pub fn ot_undo(
            log: *mut u8,
            log_len: usize,
            k: u64,
            text: *const u8,
            text_len: usize,
            scratch_a: *mut u8,
            scratch_a_len: usize,
            scratch_b: *mut u8,
            scratch_b_len: usize,
            out: *mut u8,
            out_len: usize,
        ) -> u64;
        pub fn ot_summary(log: *const u8, log_len: usize, out: *mut u8, out_len: usize) -> u64;
        pub fn ot_play(
            log: *const u8,
            log_len: usize,
            text: *const u8,
            text_len: usize,
            scratch_a: *mut u8,
            scratch_a_len: usize,
            scratch_b: *mut u8,
            scratch_b_len: usize,
            out: *mut u8,
            out_len: usize,
        ) -> u64;
    }
}

/// Why a call is refused.
#[derive(Clone, Copy, Debug, PartialEq, Eq, Hash)]
pub enum Refusal {
    Size,
    Entry,
    Utf8,
    Neighbours,
    Sums,
    Log,
    Revision,
    IncompatibleLengths,
    Limit,
    Room,
    Json,
}

const REFUSALS: [(Refusal, &str); 11] = [
    (Refusal::Size, "the record is cut off, or states a size over its limit"),
    (Refusal::Entry, "an operation has an unknown kind or the count 0, or the inserts don't add up to the text"),
    (Refusal::Utf8, "a text isn't well-formed UTF-8"),
    (Refusal::Neighbours, "two neighbouring operations are of one kind, or an insert stands behind a delete"),
    (Refusal::Sums, "the stated length before or after the edit isn't the sum of its operations"),
    (Refusal::Log, "the log can't be read"),
    (Refusal::Revision, "the log has no such revision"),
    (Refusal::IncompatibleLengths, "incompatible lengths"),
    (Refusal::Limit, "the result would pass a limit"),
    (Refusal::Room, "a buffer is too short for what goes into it"),
    (Refusal::Json, "the bytes are no JSON list of whole numbers other than 0 and strings"),
];

impl Refusal {
    /// 1 to 11.
    pub fn number(self) -> u8 {
        self as u8 + 1
    }

    fn of(number: u64) -> Refusal {
        REFUSALS[number as usize - 1].0
    }
}

impl fmt::Display for Refusal {
    fn fmt(&self, f: &mut fmt::Formatter<'_>) -> fmt::Result {
        write!(f, "refused {}: {}", self.number(), REFUSALS[*self as usize].1)
    }
}

impl std::error::Error for Refusal {}

fn one(answer: u64) -> Result<usize, Refusal> {
    if answer >> 63 == 0 {
        Ok(answer as usize)
    } else {
        Err(Refusal::of(answer & 0xFF))
    }
}

fn two(answer: u64) -> Result<(usize, usize), Refusal> {
    one(answer).map(|n| (n & 0xFFFF_FFFF, n >> 32))
}

/// Whether the bytes are UTF-8 by RFC 3629.
pub fn well_formed(text: &[u8]) -> bool {
    unsafe { sys::ot_well_formed(text.as_ptr(), text.len()) == 1 }
}

/// The number of bytes that aren't continuations.
pub fn num_chars(bytes: &[u8]) -> usize {
    unsafe { sys::ot_num_chars(bytes.as_ptr(), bytes.len()) as usize }
}

/// How many bytes the record has.
pub fn check(rec: &[u8]) -> Result<usize, Refusal> {
    one(unsafe { sys::ot_check(rec.as_ptr(), rec.len()) })
}

pub fn base_len(rec: &[u8]) -> Result<usize, Refusal> {
    one(unsafe { sys::ot_base_len(rec.as_ptr(), rec.len()) })
}

pub fn target_len(rec: &[u8]) -> Result<usize, Refusal> {
    one(unsafe { sys::ot_target_len(rec.as_ptr(), rec.len()) })
}

pub fn is_noop(rec: &[u8]) -> Result<bool, Refusal> {
    one(unsafe { sys::ot_is_noop(rec.as_ptr(), rec.len()) }).map(|n| n == 1)
}

#[derive(Clone, Copy, Debug, PartialEq, Eq)]
pub enum Kind {
    Retain,
    Insert,
    Delete,
}

/// What stands at operation `at`: its kind, and its count (an insert's in bytes). None past the last, or where the record is refused.
pub fn step(rec: &[u8], at: usize) -> Option<(Kind, usize)> {
    let found = unsafe { sys::ot_step(rec.as_ptr(), rec.len(), at as u64) };
    let kind = match found & 0xFF {
        1 => Kind::Retain,
        2 => Kind::Insert,
        3 => Kind::Delete,
        _ => return None,
    };
    Some((kind, (found >> 8) as usize))
}

/// The text of operation `k`, where it is an insert.
pub fn insert_text(rec: &[u8], k: usize) -> &[u8] {
    let found = unsafe { sys::ot_insert_text(rec.as_ptr(), rec.len(), k as u64) };
    let (from, len) = ((found & 0xFFFF_FFFF) as usize, (found >> 32) as usize);
    &rec[from..from + len]
}

pub fn retain(rec: &[u8], n: u64, out: &mut [u8]) -> Result<usize, Refusal> {
    one(unsafe { sys::ot_retain(rec.as_ptr(), rec.len(), n, out.as_mut_ptr(), out.len()) })
}

pub fn delete(rec: &[u8], n: u64, out: &mut [u8]) -> Result<usize, Refusal> {
    one(unsafe { sys::ot_delete(rec.as_ptr(), rec.len(), n, out.as_mut_ptr(), out.len()) })
}

pub fn insert(rec: &[u8], text: &[u8], out: &mut [u8]) -> Result<usize, Refusal> {
    one(unsafe { sys::ot_insert(rec.as_ptr(), rec.len(), text.as_ptr(), text.len(), out.as_mut_ptr(), out.len()) })
}

/// The edit of a JSON list, which all the bytes are: a positive whole number retains, a negative one deletes, a string inserts.
/// [`Refusal::Json`], before any other refusal, where they are anything else.
pub fn from_json(list: &[u8], out: &mut [u8]) -> Result<usize, Refusal> {
    one(unsafe { sys::ot_from_json(list.as_ptr(), list.len(), out.as_mut_ptr(), out.len()) })
}

/// The list of an edit, without white space, which [`from_json`] reads as the same record.
pub fn to_json(rec: &[u8], out: &mut [u8]) -> Result<usize, Refusal> {
    one(unsafe { sys::ot_to_json(rec.as_ptr(), rec.len(), out.as_mut_ptr(), out.len()) })
}

/// The text after the edit.
pub fn apply(rec: &[u8], text: &[u8], out: &mut [u8]) -> Result<usize, Refusal> {
    one(unsafe { sys::ot_apply(rec.as_ptr(), rec.len(), text.as_ptr(), text.len(), out.as_mut_ptr(), out.len()) })
}

/// The edit that undoes this one on that text: applied to what [`apply`] gives, it gives the text again.
pub fn invert(rec: &[u8], text: &[u8], out: &mut [u8]) -> Result<usize, Refusal> {
    one(unsafe { sys::ot_invert(rec.as_ptr(), rec.len(), text.as_ptr(), text.len(), out.as_mut_ptr(), out.len()) })
}

/// The edit that does what `a` does, and then what `b` does.
pub fn compose(a: &[u8], b: &[u8], out: &mut [u8]) -> Result<usize, Refusal> {
    one(unsafe { sys::ot_compose(a.as_ptr(), a.len(), b.as_ptr(), b.len(), out.as_mut_ptr(), out.len()) })
}

/// `a` past `b`, and `b` past `a`.
pub fn transform(a: &[u8], b: &[u8], out_a: &mut [u8], out_b: &mut [u8]) -> Result<(usize, usize), Refusal> {
    two(unsafe {
        sys::ot_transform(
            a.as_ptr(),
            a.len(),
            b.as_ptr(),
            b.len(),
            out_a.as_mut_ptr(),
            out_a.len(),
            out_b.as_mut_ptr(),
            out_b.len(),
        )
    })
}

/// A log with no revisions, for a text of `start` characters.
pub fn open(start: u64, log: &mut [u8]) -> Result<usize, Refusal> {
    one(unsafe { sys::ot_open(start, log.as_mut_ptr(), log.len()) })
}

/// An edit that was written against revision `r`: how many bytes the log grew by, and how many the counterparts have.
pub fn accept(edit: &[u8], r: u64, log: &mut [u8], out: &mut [u8]) -> Result<(usize, usize), Refusal> {
    two(unsafe { sys::ot_accept(edit.as_ptr(), edit.len(), r, log.as_mut_ptr(), log.len(), out.as_mut_ptr(), out.len()) })
}

/// Takes revision `k` back, 1 being the first, although others came after it: plays the revisions before it on `text`, which the
/// session began with, inverts it there, and accepts the inverse as written against `k`. The two numbers are those of [`accept`]. Each
/// scratch buffer holds every text up to revision `k - 1`, the first included; what stands in them afterwards is free.
pub fn undo(
    log: &mut [u8],
    k: u64,
    text: &[u8],
    scratch_a: &mut [u8],
    scratch_b: &mut [u8],
    out: &mut [u8],
) -> Result<(usize, usize), Refusal> {
    two(unsafe {
        sys::ot_undo(
            log.as_mut_ptr(),
            log.len(),
            k,
            text.as_ptr(),
            text.len(),
            scratch_a.as_mut_ptr(),
            scratch_a.len(),
            scratch_b.as_mut_ptr(),
            scratch_b.len(),
            out.as_mut_ptr(),
            out.len(),
        )
    })
}

/// All revisions as one edit.
pub fn summary(log: &[u8], out: &mut [u8]) -> Result<usize, Refusal> {
    one(unsafe { sys::ot_summary(log.as_ptr(), log.len(), out.as_mut_ptr(), out.len()) })
}

/// The text after all revisions. Each scratch buffer holds every text on the way; what stands in them afterwards is free.
pub fn play(log: &[u8], text: &[u8], scratch_a: &mut [u8], scratch_b: &mut [u8], out: &mut [u8]) -> Result<usize, Refusal> {
    one(unsafe {
        sys::ot_play(
            log.as_ptr(),
            log.len(),
            text.as_ptr(),
            text.len(),
            scratch_a.as_mut_ptr(),
            scratch_a.len(),
            scratch_b.as_mut_ptr(),
            scratch_b.len(),
            out.as_mut_ptr(),
            out.len(),
        )
    })
}

#[cfg(test)]
mod tests {
    use super::*;

    fn built(steps: &[(char, u64, &str)]) -> Vec<u8> {
        let mut rec = EMPTY.to_vec();
        for (kind, n, text) in steps {
            let mut out = vec![0; RECORD];
            let size = match kind {
                'r' => retain(&rec, *n, &mut out),
                'd' => delete(&rec, *n, &mut out),
                _ => insert(&rec, text.as_bytes(), &mut out),
            };
            out.truncate(size.unwrap());
            rec = out;
        }
        rec
    }

    #[test]
    fn refusals_have_numbers_and_words() {
        for (i, (refusal, words)) in REFUSALS.iter().enumerate() {
            assert_eq!(refusal.number() as usize, i + 1);
            assert_eq!(Refusal::of(i as u64 + 1), *refusal);
            assert_eq!(refusal.to_string(), format!("refused {}: {words}", i + 1));
        }
    }

    #[test]
    fn an_insert_goes_before_a_delete() {
        let rec = built(&[('d', 2, ""), ('i', 0, "ab")]);
        assert_eq!(step(&rec, 0), Some((Kind::Insert, 2)));
        assert_eq!(step(&rec, 1), Some((Kind::Delete, 2)));
        assert_eq!(step(&rec, 2), None);
        assert_eq!(insert_text(&rec, 0), b"ab");
        assert_eq!(insert_text(&rec, 1), b"");
        assert_eq!((base_len(&rec), target_len(&rec), is_noop(&rec)), (Ok(2), Ok(2), Ok(false)));
        assert_eq!(check(&rec), Ok(rec.len()));
        assert_eq!(check(&rec[..rec.len() - 1]), Err(Refusal::Size));
    }

    #[test]
    fn a_list_is_read_and_written() {
        let rec = built(&[('r', 4, ""), ('d', 1, ""), ('i', 0, "\"\u{1F600}\t")]);
        let mut out = vec![0; RECORD];
        assert_eq!(from_json(b" [4 , -1,\"\\u0022\",\"\\uD83D\\ude00\\t\"]\n", &mut out), Ok(rec.len()));
        assert_eq!(out[..rec.len()], rec[..]);
        let mut list = vec![0; JSON];
        let n = to_json(&rec, &mut list).unwrap();
        assert_eq!(std::str::from_utf8(&list[..n]).unwrap(), "[4,\"\\\"\u{1F600}\\u0009\",-1]");
        assert_eq!(from_json(&list[..n + 1], &mut out), Err(Refusal::Json));
        assert_eq!(from_json(b"[32769]", &mut out), Err(Refusal::Limit));
        assert_eq!(from_json(b"[32769,0]", &mut out), Err(Refusal::Json));
        assert_eq!(from_json(b"[]", &mut out[..7]), Err(Refusal::Room));
        assert_eq!(to_json(&rec, &mut list[..n - 1]), Err(Refusal::Room));
        assert_eq!(to_json(&rec[..7], &mut list), Err(Refusal::Size));
    }

    #[test]
    fn a_late_edit_meets_what_came_before() {
        let text = "Geräte sperren";
        let first = built(&[('r', 6, ""), ('i', 0, " nicht"), ('r', 8, "")]);
        let second = built(&[('d', 6, ""), ('i', 0, "Liste"), ('r', 8, "")]);
        let mut log = vec![0; LOG];
        assert_eq!(open(14, &mut log), Ok(4));
        let mut out = vec![0; COUNTERPARTS];
        assert_eq!(accept(&first, 0, &mut log, &mut out), Ok((first.len(), 0)));
        let (added, counterparts) = accept(&second, 0, &mut log, &mut out).unwrap();
        let size = 4 + first.len() + added;
        let (mut a, mut b, mut shipped) = (vec![0; 64], vec![0; 64], vec![0; 64]);
        let n = play(&log[..size], text.as_bytes(), &mut a, &mut b, &mut shipped).unwrap();
        assert_eq!(std::str::from_utf8(&shipped[..n]).unwrap(), "Liste nicht sperren");
        let mut sum = vec![0; RECORD];
        let k = summary(&log[..size], &mut sum).unwrap();
        let mut again = vec![0; 64];
        assert_eq!(apply(&sum[..k], text.as_bytes(), &mut again), Ok(n));
        assert_eq!(again, shipped);
        let mut mine = vec![0; 64];
        let m = apply(&second, text.as_bytes(), &mut mine).unwrap();
        let mut met = vec![0; 64];
        assert_eq!(apply(&out[..counterparts], &mine[..m], &mut met), Ok(n));
        assert_eq!(met, shipped);
        assert_eq!(accept(&second, 3, &mut log, &mut out), Err(Refusal::Revision));
        assert_eq!(accept(&second, 2, &mut log, &mut out), Err(Refusal::IncompatibleLengths));
    }

    #[test]
    fn a_revision_is_taken_back_although_another_came_after_it() {
        let text = "Geräte sperren";
        let first = built(&[('d', 6, ""), ('i', 0, "Liste"), ('r', 8, "")]);
        let second = built(&[('r', 5, ""), ('i', 0, " nicht"), ('r', 8, "")]);
        let mut log = vec![0; 200];
        let mut size = open(14, &mut log).unwrap();
        let (mut a, mut b, mut out) = (vec![0; 64], vec![0; 64], vec![0; 64]);
        size += accept(&first, 0, &mut log, &mut out).unwrap().0;
        size += accept(&second, 1, &mut log, &mut out).unwrap().0;
        let (added, counterparts) = undo(&mut log, 1, text.as_bytes(), &mut a, &mut b, &mut out).unwrap();
        size += added;
        assert_eq!(out[..counterparts], built(&[('r', 6, ""), ('i', 0, " nicht"), ('r', 8, "")])[..]);
        let n = play(&log[..size], text.as_bytes(), &mut a, &mut b, &mut out).unwrap();
        assert_eq!(std::str::from_utf8(&out[..n]).unwrap(), "Geräte nicht sperren");
        assert_eq!(undo(&mut log, 0, text.as_bytes(), &mut a, &mut b, &mut out), Err(Refusal::Revision));
        assert_eq!(undo(&mut log, 4, text.as_bytes(), &mut a, &mut b, &mut out), Err(Refusal::Revision));
        assert_eq!(undo(&mut log, 1, b"Liste", &mut a, &mut b, &mut out), Err(Refusal::IncompatibleLengths));
        assert_eq!(undo(&mut log, 1, text.as_bytes(), &mut a, &mut b[..14], &mut out), Err(Refusal::Room));
    }
}
