//! Traces, and questions to them: records, searches, openings, sequential reads.
use crate::leaves::{TICKS_2000, TICKS_2100};
use crate::random::Random;
use crate::{Cases, kinds, pti, zniffer};
use zniff_core::zlf::types::ZLF_VERSION;

/// A trace as it is made: its bytes, and where its records start.
pub struct Trace {
    pub bytes: Vec<u8>,
    pub starts: Vec<usize>,
}

/// A header: the version, at times a comment, and the sum of the rest, right or not.
fn header(r: &mut Random, version: u32, right: bool) -> Vec<u8> {
    let mut h = vec![0; 2046];
    h[..4].copy_from_slice(&version.to_le_bytes());
    if r.chance(50) {
        let comment = r.bytes(40);
        h[8..48].copy_from_slice(&comment);
    }
    let sum = crc16::State::<crc16::AUG_CCITT>::calculate(&h) ^ !right as u16;
    h.extend(sum.to_le_bytes());
    h
}

/// A record as it is stored.
pub fn record(ticks: u64, properties: u8, length: i32, payload: &[u8], end: u8) -> Vec<u8> {
    let mut out = ticks.to_le_bytes().to_vec();
    out.push(properties);
    out.extend(length.to_le_bytes());
    out.extend(payload);
    out.push(end);
    out
}

/// The end bytes of a kind.
pub fn ends(kind: u8) -> Vec<u8> {
    (0..=255u8).filter(|e| kinds()[*e as usize] == kind).collect()
}

/// A record of a kind, with a payload as that kind has.
pub fn some_record(r: &mut Random, ticks: u64) -> Vec<u8> {
    let kind = r.of(&[1, 1, 1, 1, 2, 3, 3, 4]);
    let mut payload = match kind {
        1 | 2 => pti::payload(r),
        3 => {
            let parts = r.between(1, 3);
            zniffer::stream(r, parts)
        }
        _ => {
            let n = r.between(1, 60) as usize;
            r.bytes(n)
        }
    };
    if payload.is_empty() {
        payload = vec![0x5B];
    }
    let end = r.of(&ends(kind));
    record(ticks | r.below(4) << 62, r.byte(), payload.len() as i32, &payload, end)
}

/// A trace of so many records, most often with times that do not go back; at times with bytes after them, or cut.
pub fn trace(r: &mut Random, records: u64) -> Trace {
    let right = r.chance(90);
    let version = if r.chance(95) { ZLF_VERSION } else { r.u64() as u32 };
    let sorted = r.chance(80);
    let mut t = Trace { bytes: header(r, version, right), starts: Vec::new() };
    let mut ticks = r.between(TICKS_2000, TICKS_2100 - 1_000_000_000_000_000);
    for _ in 0..records {
        ticks = match r.below(4) {
            _ if !sorted => r.between(TICKS_2000, TICKS_2100),
            0 => ticks,
            1 => ticks + 9_999,
            2 => ticks + 10_000,
            _ => ticks + r.below(1_000_000_000),
        };
        t.starts.push(t.bytes.len());
        t.bytes.extend(some_record(r, ticks));
    }
    if r.chance(20) {
        let n = r.below(40) as usize;
        t.bytes.extend(r.bytes(n));
    }
    if r.chance(10) {
        t.bytes.truncate(r.below(t.bytes.len() as u64 + 1) as usize);
    }
    t
}

/// A place that is worth asking about: around the header's end, a record's start or end, the trace's length, the ends of u64.
pub fn place(r: &mut Random, t: &Trace) -> u64 {
    let n = t.bytes.len() as u64;
    let near = match r.below(10) {
        0 => r.of(&[0, 1, 1 << 63, u64::MAX, u64::MAX - 2048, 2046]),
        1 => 2048,
        2 => n,
        3 | 4 => r.below(n + 20),
        _ if t.starts.is_empty() => 2048,
        _ => r.of(&t.starts) as u64,
    };
    near.wrapping_add(r.of(&[0, 0, 0, 1, 2, u64::MAX, u64::MAX - 1]))
}

/// A window: none, one offset, small, the default, and around the largest that is not refused.
fn window(r: &mut Random, from: u64) -> u64 {
    let most = u64::MAX - from.max(2048);
    match r.below(8) {
        0 => 0,
        1 => 1,
        2 | 3 => r.below(400),
        4 => most,
        5 => most.wrapping_add(1),
        6 => r.of(&[u64::MAX, most.wrapping_sub(1), most / 2]),
        _ => 1 << 20,
    }
}

pub fn ask(cases: &mut Cases, letter: u8, numbers: &[u64]) {
    let bytes: Vec<u8> = numbers.iter().flat_map(|n| n.to_le_bytes()).collect();
    cases.add(letter, &[&bytes]);
}

/// Questions about the trace that stands.
fn questions(cases: &mut Cases, r: &mut Random, t: &Trace, times: usize) {
    for _ in 0..times {
        for _ in 0..4 {
            ask(cases, b'r', &[place(r, t)]);
        }
        for _ in 0..4 {
            let from = place(r, t);
            ask(cases, b'n', &[from, window(r, from)]);
        }
        ask(cases, b't', &[place(r, t)]);
    }
    ask(cases, b'q', &[]);
    for _ in 0..times.min(3) {
        ask(cases, b'Q', &[place(r, t)]);
    }
}

/// Questions to traces of no to 20 records, and to three damaged copies of each, which are asked fewer.
pub fn with_damage(cases: &mut Cases, r: &mut Random, most: usize, times: [usize; 2], questions: fn(&mut Cases, &mut Random, &Trace, usize)) {
    for _ in 0..most {
        let records = r.of(&[0, 1, 2, 3, 4, 4, 10, 20]);
        let t = trace(r, records);
        cases.block(b'T', &t.bytes);
        questions(cases, r, &t, times[0]);
        for _ in 0..3 {
            if t.bytes.len() > 2048 {
                let at = r.between(2048, t.bytes.len() as u64 - 1) as u32;
                let b = if r.chance(60) { r.of(&[0x00, 0x5B, 0x5D, 0xFF, 0xFE]) } else { r.byte() };
                cases.add(b'P', &[&at.to_le_bytes(), &[b]]);
                questions(cases, r, &t, times[1]);
            }
        }
    }
}

/// Records, searches and sequential reads.
pub fn traces(cases: &mut Cases, r: &mut Random, most: usize) {
    with_damage(cases, r, most, [30, 12], questions);
}

/// Every offset near the records, each asked about in every way.
fn all_around(cases: &mut Cases, t: &Trace) {
    let n = t.bytes.len() as u64;
    let from = n.min(2048).saturating_sub(2);
    for at in (from..=n + 2).chain([0, 1, 1 << 63, u64::MAX - 1, u64::MAX]) {
        ask(cases, b'r', &[at]);
        ask(cases, b'n', &[at, 1 << 20]);
        ask(cases, b'Q', &[at]);
    }
    for w in 0..=n.saturating_sub(2048) + 2 {
        ask(cases, b'n', &[0, w]);
    }
    for at in [0, 2047, 2048, 2049, n, u64::MAX - 1_048_577, u64::MAX - 1_048_576, u64::MAX - 1_048_575, u64::MAX] {
        ask(cases, b't', &[at]);
    }
    ask(cases, b'q', &[]);
}

/// A header that opens.
pub fn good_header() -> Vec<u8> {
    header(&mut Random::new(0), ZLF_VERSION, true)
}

/// A trace of these records, with such a header.
fn of(records: &[Vec<u8>]) -> Trace {
    let mut t = Trace { bytes: good_header(), starts: Vec::new() };
    for x in records {
        t.starts.push(t.bytes.len());
        t.bytes.extend(x);
    }
    t
}

/// Every limit of the record test and of the reader, one after the other.
pub fn edges(cases: &mut Cases, r: &mut Random, most: usize) {
    let few = most < 100;
    let good = |n: u64| record(TICKS_2000 + n * 10_000, n as u8, 3, &[0x5B, n as u8, 0x5D], ends(1)[0]);
    let mut show = |t: &Trace| {
        cases.block(b'T', &t.bytes);
        all_around(cases, t);
    };
    // no, one, two, three and four records, cut at every byte of the last one
    for n in 0..=4 {
        let mut t = of(&(0..n).map(good).collect::<Vec<_>>());
        show(&t);
        while !few && n > 1 && t.bytes.len() > *t.starts.last().unwrap() {
            t.bytes.pop();
            show(&t);
        }
    }
    // ticks at both limits and one beyond, with all four values of the top bits
    for ticks in [TICKS_2000 - 1, TICKS_2000, TICKS_2100, TICKS_2100 + 1, 0, (1 << 62) - 1] {
        for top in 0..if few { 1 } else { 4u64 } {
            show(&of(&[good(0), record(ticks | top << 62, 0x80, 3, b"[x]", ends(2)[0]), good(1)]));
        }
    }
    // lengths that are not the payload's
    for length in [i32::MIN, -1, 0, 1, 2, 3, 4, 17, 18, 19, 1_048_575, 1_048_576, 1_048_577, i32::MAX] {
        show(&of(&[good(0), record(TICKS_2000, 0x7F, length, b"[x]", ends(1)[0]), good(1)]));
    }
    // each end byte, with a payload that opens with 5B and one that does not
    for end in (0..=255u8).step_by(if few { 51 } else { 1 }) {
        for first in [0x5B, 0x5C] {
            let t = of(&[record(TICKS_2100, 0xFF, 1, &[first], end)]);
            cases.block(b'T', &t.bytes);
            ask(cases, b'r', &[2048]);
            ask(cases, b'n', &[0, 1 << 20]);
            ask(cases, b't', &[0]);
            ask(cases, b'Q', &[2048]);
        }
    }
    // sums and versions, wrong and right, and headers cut short
    for right in [true, false] {
        for version in [ZLF_VERSION, 0, ZLF_VERSION + 1, ZLF_VERSION << 8, u32::MAX] {
            let h = header(r, version, right);
            cases.block(b'T', &h);
            ask(cases, b'q', &[]);
        }
    }
    for n in [0, 1, 3, 4, 5, 2045, 2046, 2047] {
        let h = header(r, ZLF_VERSION, true);
        cases.block(b'T', &h[..n]);
        ask(cases, b'q', &[]);
        ask(cases, b'r', &[0]);
        ask(cases, b'n', &[0, 1 << 20]);
        ask(cases, b'Q', &[0]);
    }
}

/// A record of the largest length, one too long, and searches over a megabyte of nothing, of near misses and of records.
pub fn large(cases: &mut Cases, r: &mut Random, most: usize) {
    if most < 100 {
        return;
    }
    let length = r.of(&[1_048_576, 1_048_577, 1_048_575]);
    let small = |n: u64| record(TICKS_2000 + n, 0, 2, b"[]", ends(1)[0]);
    let big = record(TICKS_2100, 1, length, &vec![r.of(&[0x5B, 0x00, 0x5C]); length as usize], ends(4)[0]);
    let t = of(&[small(0), small(1), big, small(2), small(3)]);
    cases.block(b'T', &t.bytes);
    for s in &t.starts {
        for d in [u64::MAX, 0, 1] {
            let at = (*s as u64).wrapping_add(d);
            ask(cases, b'r', &[at]);
            ask(cases, b't', &[at]);
            for w in [1 << 20, (1 << 20) - 1, (1 << 20) + 20, 1 << 21] {
                ask(cases, b'n', &[at, w]);
            }
        }
    }
    ask(cases, b'q', &[]);
}
