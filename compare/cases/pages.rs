//! Pages, chains of pages, seam checks and cursor openings.
use crate::Cases;
use crate::leaves::TICKS_2000;
use crate::random::Random;
use crate::traces::{Trace, ask, ends, good_header, place, record, with_damage};
use crate::zniffer;

/// Counts that a page is asked for: the small ones, a page's usual one, and more than there are.
const COUNTS: [u64; 8] = [0, 1, 1, 2, 3, 7, 64, 100_000];

/// Questions about the trace that stands.
fn questions(cases: &mut Cases, r: &mut Random, t: &Trace, times: usize) {
    ask(cases, b'o', &[]);
    for _ in 0..times {
        let from = place(r, t);
        ask(cases, b'f', &[from, r.of(&COUNTS)]);
        ask(cases, b'u', &[place(r, t)]);
    }
    for count in [1, 2, 3, 7, 64] {
        let from = if r.chance(50) { 2048 } else { place(r, t) };
        ask(cases, b'F', &[from, count]);
    }
}

/// Pages, chains, seam checks and openings.
pub fn pages(cases: &mut Cases, r: &mut Random, most: usize) {
    with_damage(cases, r, most, [40, 20], questions);
}

/// A Zniffer frame with one byte of payload.
fn frame(i: usize) -> [u8; 11] {
    [0x21, 0x01, (i >> 8) as u8, i as u8, 0x43, 0x00, 0xC4, 0x21, 0x03, 0x01, i as u8]
}

/// Records with so many frames each, and after each of them one that has none.
fn with_frames(numbers: &[usize]) -> Vec<u8> {
    let mut bytes = good_header();
    for (k, n) in numbers.iter().enumerate() {
        let mut payload: Vec<u8> = (0..*n).flat_map(frame).collect();
        payload.push(0);
        let ticks = TICKS_2000 + 10_000 * k as u64;
        bytes.extend(record(ticks, 0x80 * (k & 1) as u8, payload.len() as i32, &payload, ends(3)[0]));
        bytes.extend(record(ticks, 0, 1, &[0], ends(4)[0]));
    }
    bytes
}

/// Pages that fill a table of 600 rows to the last, that have one row too many for it or one fewer, and none.
pub fn full(cases: &mut Cases, _: &mut Random, most: usize) {
    let lists: &[&[usize]] = &[&[599], &[600], &[601], &[599, 1, 1], &[300, 300, 1], &[1, 599, 1, 600], &[1, 600, 1], &[598, 1, 2, 3], &[0, 0, 0, 600, 601]];
    let counts: &[u64] = if most < 100 { &[600] } else { &[0, 1, 2, 298, 300, 301, 599, 600, 601, 602, u64::MAX] };
    for list in lists.iter().take(if most < 100 { 3 } else { most }) {
        let bytes = with_frames(list);
        cases.block(b'T', &bytes);
        for &count in counts {
            ask(cases, b'f', &[2048, count]);
            ask(cases, b'F', &[2048, count]);
        }
        ask(cases, b'u', &[2048]);
    }
}

/// 01's record, three times, then 20 zero bytes: from every offset, with every count, by pages and by chains, with every seam check; and the
/// same of no, one and two of them, and without the zeros.
pub fn example(cases: &mut Cases, _: &mut Random, most: usize) {
    let mut payload = vec![0x5B, 0x16, 0x00, 0x02];
    payload.extend([0; 10]);
    payload.extend([0xF8, 0xAA, 0xBB, 0xF9, 0xC4, 0x01, 0x01, 0x06, 0x00, 0x5D]);
    let one = record(TICKS_2000 + 10_000, 0, payload.len() as i32, &payload, ends(1)[0]);
    for copies in 0..=if most < 100 { 1 } else { 4 } {
        for zeros in [0, 20] {
            let mut bytes = good_header();
            (0..copies).for_each(|_| bytes.extend(&one));
            bytes.extend(vec![0; zeros]);
            let n = bytes.len() as u64;
            cases.block(b'T', &bytes);
            for at in 2046..=n + 1 {
                for count in [0, 1, 2, 3, 5] {
                    ask(cases, b'f', &[at, count]);
                }
                ask(cases, b'F', &[at, 1]);
                ask(cases, b'F', &[at, 2]);
                ask(cases, b'u', &[at]);
            }
            ask(cases, b'o', &[]);
        }
    }
}

/// Traces of Zniffer records, some hundreds in each: all pages of them, and pages from some of the records.
pub fn zniffer(cases: &mut Cases, r: &mut Random, most: usize) {
    let few = most < 100;
    for payloads in zniffer::payloads(r, few).chunks(if few { 1_000 } else { 300 }) {
        let mut t = Trace { bytes: good_header(), starts: Vec::new() };
        for (n, p) in payloads.iter().enumerate() {
            t.starts.push(t.bytes.len());
            t.bytes.extend(record(TICKS_2000 + 10_000 * n as u64, r.byte(), p.len() as i32, p, ends(3)[0]));
        }
        cases.block(b'T', &t.bytes);
        ask(cases, b'F', &[2048, 64]);
        for _ in 0..if few { 2 } else { 40 } {
            ask(cases, b'f', &[r.of(&t.starts) as u64, r.of(&COUNTS)]);
        }
        ask(cases, b'u', &[2048]);
    }
}
