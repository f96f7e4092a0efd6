//! PTI payloads and what they make when joined, for the law of 02's request 12: groups of three, p, q and r, each split alone and in
//! every joining that keeps their order. bundles/main.rs judges the answers.
use crate::Cases;
use crate::leaves::TICKS_2000;
use crate::pti::{body, bracket, damaged};
use crate::random::Random;
use crate::traces::{ask, ends, good_header, record};

/// The bytes of the longest body that a bracket record can carry, since its L is 255 at most.
const LONGEST: usize = 253;

/// A body as long as one can be, with a frame whose radio part repeats a pattern: a beam, where that opens with 55.
fn longest(r: &mut Random, pattern: &[u8]) -> Vec<u8> {
    let (version, sent) = (r.of(&[2, 2, 2, 3]), r.chance(50));
    let (channel, region) = r.of(&[(0, 1), (1, 1), (2, 2), (3, 12), (0, 14), (3, 1)]);
    let mut tail = vec![if sent { 0xFD } else { 0xF9 }];
    if !sent {
        tail.push(r.byte());
    }
    tail.extend([region, channel, 0x06, r.byte()]);
    let mut out = vec![version];
    out.extend(r.bytes(if version == 3 { 17 } else { 10 }));
    out.push(if sent { 0xFC } else { 0xF8 });
    let room = LONGEST - out.len() - tail.len();
    out.extend(pattern.iter().cycle().take(room));
    out.extend(tail);
    out
}

/// Such a body with a beam of 3 or 4 bytes, or of 55 alone, at times with one byte changed.
fn longest_beam(r: &mut Random) -> Vec<u8> {
    let n = r.of(&[2, 2, 2, 3, 3, 0]);
    let pattern = [vec![0x55], r.bytes(n)].concat();
    let beam = longest(r, &pattern);
    if r.chance(30) { damaged(r, &beam) } else { beam }
}

/// Such a body with a frame that never repeats.
fn longest_frame(r: &mut Random) -> Vec<u8> {
    let radio = r.bytes(LONGEST);
    longest(r, &radio)
}

/// A good bracket record.
fn good_record(r: &mut Random) -> Vec<u8> {
    let body = match r.below(24) {
        0 | 1 => return vec![0x5B, 0x01, 0x5D],
        2 | 3 => Vec::new(),
        4 => {
            let n = r.between(0, LONGEST as u64) as usize;
            r.bytes(n)
        }
        5 => longest_frame(r),
        6 => longest_beam(r),
        _ => body(r),
    };
    bracket(r, &body[..body.len().min(LONGEST)])
}

/// A payload on the premises: good records to its last byte, and longer than 4 bytes.
fn good(r: &mut Random, records: u64) -> Vec<u8> {
    let mut out = Vec::new();
    for _ in 0..r.between(1, records) {
        out.extend(good_record(r));
    }
    while out.len() <= 4 {
        out.extend(good_record(r));
    }
    out
}

/// A payload of 4 bytes or fewer.
fn short(r: &mut Random) -> Vec<u8> {
    match r.below(6) {
        0 => vec![],
        1 => vec![0x5B, 0x01, 0x5D],
        2 | 3 => bracket(r, &[]),
        4 => (0..r.between(1, 4)).map(|_| r.of(&[0x00, 0x01, 0x02, 0x5B, 0x5D])).collect(),
        _ => {
            let n = r.between(1, 4) as usize;
            r.bytes(n)
        }
    }
}

/// A record that is bad at a payload's end: an L of 0, another byte for 5B or for 5D, or an L beyond the end.
fn bad_record(r: &mut Random) -> Vec<u8> {
    let n = r.between(0, 60) as usize;
    let body = r.bytes(n);
    let mut out = bracket(r, &body);
    let last = out.len() - 1;
    match r.below(4) {
        0 => out[1] = 0,
        1 => out[0] = r.of(&[0x00, 0x5A, 0x5D]),
        2 => out[last] = r.of(&[0x00, 0x5B, 0x5C]),
        _ => out[1] += r.between(1, 100) as u8,
    }
    out
}

/// A payload that misses a premise, most often that one alone, made of one that has them all.
fn spoilt(r: &mut Random, good: &[u8]) -> Vec<u8> {
    let mut out = good.to_vec();
    match r.below(8) {
        0..=2 => out = short(r),
        3 => out.truncate(r.below(good.len() as u64) as usize),
        4 | 5 => out.extend(bad_record(r)),
        6 => out.push(r.of(&[0x00, 0x5B, 0x5D, 0x07])),
        _ => out = damaged(r, good),
    }
    out
}

/// Three payloads: all good, or one of them spoilt, or one cut in two, so that the second completes the first's last record.
fn group(r: &mut Random, records: u64) -> [Vec<u8>; 3] {
    let mut three = [good(r, records), good(r, records), good(r, records)];
    match r.below(20) {
        0..=8 => {}
        9 => three[1] = three[0].split_off(r.below(three[0].len() as u64) as usize),
        _ => {
            let k = r.of(&[0, 0, 1, 1, 2]);
            three[k] = spoilt(r, &three[k]);
        }
    }
    three
}

/// A group's six payloads: p, q, r, p and q, q and r, all three.
fn split(cases: &mut Cases, [p, q, r]: &[Vec<u8>; 3]) {
    for parts in [&[p][..], &[q], &[r], &[p, q], &[q, r], &[p, q, r]] {
        cases.block(b'p', &parts.iter().flat_map(|x| x.iter().copied()).collect::<Vec<_>>());
    }
}

/// A trace whose records have these payloads, of both PTI kinds, with times and properties of their own; and its page.
fn trace(cases: &mut Cases, r: &mut Random, payloads: &[&[u8]]) {
    let mut bytes = good_header();
    let (mut ticks, mut properties) = (TICKS_2000 + r.below(1 << 50), r.byte());
    for p in payloads {
        let kind = r.of(&[1, 2]);
        let end = r.of(&ends(kind));
        bytes.extend(record(ticks | r.below(4) << 62, properties, p.len() as i32, p, end));
        ticks += r.between(10_000, 1_000_000_000);
        properties = properties.wrapping_add(r.between(1, 255) as u8);
    }
    cases.block(b'T', &bytes);
    ask(cases, b'f', &[2048, 500]);
}

/// A group's cases: its six payloads, then p and q as two records of a trace, and as one.
fn whole(cases: &mut Cases, r: &mut Random, three: &[Vec<u8>; 3]) {
    split(cases, three);
    trace(cases, r, &[&three[0], &three[1]]);
    trace(cases, r, &[&[&three[0][..], &three[1]].concat()]);
}

/// Random groups, and one whose first payload has more than 65,536 bytes.
pub fn bundles(cases: &mut Cases, r: &mut Random, most: usize) {
    let few = most < 100;
    for _ in 0..if few { 1 } else { most } {
        let three = group(r, if few { 2 } else { 12 });
        whole(cases, r, &three);
    }
    if !few {
        let mut long = Vec::new();
        while long.len() <= 65_536 {
            let frame = if r.chance(50) { longest_frame(r) } else { longest_beam(r) };
            long.extend(bracket(r, &frame));
        }
        let three = [long, good(r, 12), good(r, 12)];
        whole(cases, r, &three);
    }
}

/// Small payloads at which something changes.
const SMALL: [&[u8]; 32] = [
    // a good record, which is the shortest payload on the premises; and two
    &[0x5B, 0x03, 0x00, 0x07, 0x5D],
    &[0x5B, 0x03, 0x00, 0x07, 0x5D, 0x5B, 0x03, 0x00, 0x08, 0x5D],
    // good records in 4 bytes or fewer; and in more
    &[],
    &[0x5B, 0x01, 0x5D],
    &[0x5B, 0x02, 0x00, 0x5D],
    &[0x5B, 0x01, 0x5D, 0x5B, 0x01, 0x5D],
    &[0x5B, 0x01, 0x5D, 0x5B, 0x02, 0x00, 0x5D],
    &[0x5B, 0x02, 0x00, 0x5D, 0x5B, 0x01, 0x5D],
    &[0x5B, 0x02, 0x00, 0x5D, 0x5B, 0x02, 0x00, 0x5D],
    // 01's frame; and a body that reads as a record itself
    &[0x5B, 0x16, 0, 2, 0, 0, 0, 0, 0, 0, 0, 0, 0, 0, 0xF8, 0xAA, 0xBB, 0xF9, 0xC4, 0x01, 0x01, 0x06, 0x00, 0x5D],
    &[0x5B, 0x05, 0x00, 0x5B, 0x01, 0x5D, 0x5D],
    // cut before 5D, after 5B, after L; and what completes each of them
    &[0x5B, 0x04, 0x00, 0x07, 0x08],
    &[0x5D, 0x5B, 0x03, 0x00, 0x07, 0x5D],
    &[0x5B, 0x03, 0x00, 0x07, 0x5D, 0x5B],
    &[0x03, 0x00, 0x07, 0x5D],
    &[0x5B, 0x03, 0x00, 0x07, 0x5D, 0x5B, 0x03],
    &[0x00, 0x07, 0x5D, 0x5B, 0x01, 0x5D],
    // cut within 4 bytes
    &[0x5B],
    &[0x5B, 0x01],
    // an L of 0, an L beyond the end, another byte for 5B and for 5D, a byte too many
    &[0x5B, 0x00, 0x5D, 0x07, 0x08],
    &[0x5B, 0x01, 0x5D, 0x5B, 0x00],
    &[0x5B, 0x06, 0x5B, 0x01, 0x5D],
    &[0x5A, 0x03, 0x00, 0x07, 0x5D],
    &[0x5B, 0x03, 0x00, 0x07, 0x5C],
    &[0x5B, 0x03, 0x00, 0x07, 0x5D, 0x07],
    // no record at all
    &[0x07],
    &[0x5D],
    &[0x00, 0x00, 0x00, 0x00, 0x00],
    // nearly a record in 4 bytes or fewer: another byte for 5B, for 5D, 5B for 5D, an L of 0; last, since the sample has every 13th
    &[0x5A, 0x02, 0x00, 0x5D],
    &[0x5B, 0x02, 0x00, 0x00],
    &[0x5B, 0x02, 0x00, 0x5B],
    &[0x5B, 0x00, 0x5D],
];

/// Every group of three of them.
pub fn small(cases: &mut Cases, _: &mut Random, most: usize) {
    let list: Vec<&[u8]> = SMALL.into_iter().step_by(if most < 100 { 13 } else { 1 }).collect();
    for p in &list {
        for q in &list {
            for r in &list {
                split(cases, &[p, q, r].map(|x| x.to_vec()));
            }
        }
    }
}
