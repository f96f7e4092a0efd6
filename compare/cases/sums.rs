//! Header sums. The port takes eight bytes at a time and the rest one by one, so every length and every place of a word is met.
use crate::Cases;
use crate::random::Random;
use crate::traces::{ask, good_header};

const LONGEST: u64 = 4_096;
const WORD: u64 = 8;

pub fn sums(cases: &mut Cases, r: &mut Random, most: usize) {
    let few = most < 100;
    // the catalogue's check, no bytes, each single byte
    cases.block(b'g', b"123456789");
    cases.block(b'g', b"");
    (0..=255u8).for_each(|b| cases.block(b'g', &[b]));
    // every length, of contents of each sort
    let longest = if few { 40 } else { LONGEST };
    let of = |byte: fn(u64) -> u8| (0..longest).map(byte).collect::<Vec<u8>>();
    for bytes in [of(|_| 0), of(|_| 0xFF), of(|n| n as u8), r.bytes(longest as usize), r.bytes(longest as usize)] {
        cases.block(b'T', &bytes);
        (0..=longest).for_each(|to| ask(cases, b'S', &[0, to]));
    }
    // every length up to nine words, from every place of a word, and to the end
    for from in 0..2 * WORD {
        for length in (0..=9 * WORD).take_while(|length| from + length <= longest) {
            ask(cases, b'S', &[from, from + length]);
        }
        ask(cases, b'S', &[from, longest]);
    }
    // parts that are not there
    for (from, to) in [(1, 0), (longest, longest + 1), (longest + 1, longest + 1), (0, u64::MAX)] {
        ask(cases, b'S', &[from, to]);
    }
    // each bit alone, of no to three words, with every tail
    for length in 1..=if few { 9 } else { 4 * WORD as usize - 1 } {
        for bit in 0..8 * length {
            let mut bytes = vec![0; length];
            bytes[bit / 8] = 1 << (bit % 8);
            cases.block(b'g', &bytes);
        }
    }
    for _ in 0..most {
        let length = r.below(64) as usize;
        cases.block(b'g', &r.bytes(length));
    }
}

/// A header with any one bit changed, each by itself.
pub fn headers(cases: &mut Cases, r: &mut Random, most: usize) {
    let mut header = good_header();
    let comment = r.bytes(512);
    header[8..520].copy_from_slice(&comment);
    let sum = crc16::State::<crc16::AUG_CCITT>::calculate(&header[..2046]);
    header[2046..].copy_from_slice(&sum.to_le_bytes());
    cases.block(b'T', &header);
    ask(cases, b'q', &[]);
    for bit in (0..8 * header.len()).step_by(if most < 100 { 511 } else { 1 }) {
        let (at, byte) = ((bit / 8) as u32, header[bit / 8]);
        cases.add(b'P', &[&at.to_le_bytes(), &[byte ^ 1 << (bit % 8)]]);
        ask(cases, b'q', &[]);
        cases.add(b'P', &[&at.to_le_bytes(), &[byte]]);
    }
    ask(cases, b'q', &[]);
}
