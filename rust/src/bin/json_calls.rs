//! Answers calls of from_json and to_json for a program in another language; rust/json has two that ask it.
//!
//! A request on standard input is one byte for the call (1 from_json, 2 to_json, 3 and 4 the time that they take), four for the
//! room, four for the number of bytes, and the bytes; numbers are low byte first. An answer on standard output is four bytes, the
//! number that came back or, where the highest bit is set, the refusal; four for the length of the output, which is the room; and
//! the whole output, which was filled with EE. For a time the room is the milliseconds to measure for, and the output is eight
//! bytes: the nanoseconds for one call.
use ot::Refusal;
use std::io::{stdin, stdout, BufReader, BufWriter, Read, Result, Write};
use std::time::{Duration, Instant};

type Call = fn(&[u8], &mut [u8]) -> std::result::Result<usize, Refusal>;

const REFUSED: u32 = 1 << 31;

fn number(got: std::result::Result<usize, Refusal>) -> u32 {
    got.map_or_else(|refusal| REFUSED + refusal.number() as u32, |n| n as u32)
}

// Calls again and again for so long: the last answer, and the nanoseconds for one call.
fn time(call: Call, bytes: &[u8], out: &mut [u8], span: Duration) -> (u32, f64) {
    let mut calls = 0u64;
    let mut batch = 1u64;
    let start = Instant::now();
    loop {
        let mut last = 0;
        for _ in 0..batch {
            last = number(call(bytes, out));
        }
        calls += batch;
        let spent = start.elapsed();
        if spent >= span {
            return (last, spent.as_nanos() as f64 / calls as f64);
        }
        batch = (batch * 2).min(1 << 14);
    }
}

fn four(from: &[u8]) -> usize {
    u32::from_le_bytes(from.try_into().unwrap()) as usize
}

fn main() -> Result<()> {
    let mut input = BufReader::with_capacity(1 << 16, stdin().lock());
    let mut output = BufWriter::with_capacity(1 << 16, stdout().lock());
    let mut head = [0; 9];
    let mut longest = vec![0; ot::RECORD.max(ot::JSON)];
    while input.read_exact(&mut head).is_ok() {
        let (room, len) = (four(&head[1..5]), four(&head[5..]));
        let mut bytes = vec![0; len];
        input.read_exact(&mut bytes)?;
        let call: Call = if head[0] % 2 == 1 { ot::from_json } else { ot::to_json };
        let (answer, out) = if head[0] <= 2 {
            let mut out = vec![0xEE; room];
            (number(call(&bytes, &mut out)), out)
        } else {
            let (answer, spent) = time(call, &bytes, &mut longest, Duration::from_millis(room as u64));
            (answer, spent.to_le_bytes().to_vec())
        };
        output.write_all(&answer.to_le_bytes())?;
        output.write_all(&(out.len() as u32).to_le_bytes())?;
        output.write_all(&out)?;
        if input.buffer().is_empty() {
            output.flush()?;
        }
    }
    output.flush()
}
