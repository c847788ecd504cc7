//! Stands in for the crate `bytecount`, of which the original calls this one function: the number of bytes that aren't
//! continuations. Eight bytes at a time, as that crate counts where the machine's vector instructions aren't asked for.
pub fn num_chars(bytes: &[u8]) -> usize {
    const ONES: u64 = 0x0101_0101_0101_0101;
    let mut words = bytes.chunks_exact(8);
    let mut count = 0;
    for word in &mut words {
        let w = u64::from_le_bytes(word.try_into().unwrap());
        count += (((!w >> 7) | (w >> 6)) & ONES).count_ones() as usize;
    }
    count + words.remainder().iter().filter(|b| (**b as i8) >= -0x40).count()
}
