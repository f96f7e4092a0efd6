//! Searches around the edges of what is looked at together: a boundary, the window's end and the trace's end at every distance of no to
//! 100 offsets, after bytes of every sort.
use crate::leaves::{TICKS_2000, TICKS_2100};
use crate::random::Random;
use crate::traces::{ask, ends, good_header, record};
use crate::Cases;

const FAR: u64 = 100;
const DEFAULT: u64 = 1 << 20;

/// Bytes before a boundary: without candidates, with one at every second offset, in clusters, and records that fail late.
fn fillers(r: &mut Random) -> Vec<Vec<u8>> {
    let near_miss = record(TICKS_2000, 0, 4, b"[xx]", ends(0)[0]);
    let mut fillers = vec![vec![0x5B], vec![0], vec![0, 8], vec![9, 0], near_miss];
    for high in [8, 9] {
        fillers.push([[high; 5], [0; 5]].concat());
    }
    for apart in [8, 9, 32, 33] {
        let mut alone = vec![0x5B; apart];
        alone[0] = 0xC9;
        alone[5] = 0;
        fillers.push(alone);
    }
    fillers.push(r.bytes(200));
    fillers
}

/// A trace: these bytes over and over, three records, and these bytes again; and where the records begin. The numbers of traces that
/// follow one another give the first record's ticks either high byte with each value of the top two bits.
fn trace(number: u64, filler: &[u8], before: u64, after: u64) -> (Vec<u8>, u64) {
    let mut bytes = good_header();
    let fill = |bytes: &mut Vec<u8>, n: u64| bytes.extend(filler.iter().cycle().take(n as usize));
    fill(&mut bytes, before);
    let place = bytes.len() as u64;
    for n in number..number + 3 {
        let ticks = if n % 8 < 4 { TICKS_2000 } else { TICKS_2100 };
        bytes.extend(record(ticks | (n % 4) << 62, n as u8, 3, b"[x]", ends(1)[0]));
    }
    fill(&mut bytes, after);
    (bytes, place)
}

/// A boundary and a window's end, both at every distance.
pub fn edges(cases: &mut Cases, r: &mut Random, most: usize) {
    let step = if most < 100 { 25 } else { 1 };
    for (number, filler) in fillers(r).iter().enumerate().step_by(step.min(4)) {
        let (bytes, place) = trace(number as u64, filler, 130, 130);
        cases.block(b'T', &bytes);
        for start in (place - FAR..=place + FAR).step_by(step) {
            ask(cases, b'n', &[start, DEFAULT]);
            ask(cases, b't', &[start]);
            for window in (0..=FAR).step_by(step).filter(|_| start <= place + 20) {
                ask(cases, b'n', &[start, window]);
            }
        }
    }
}

/// The trace's end at every distance from where the records begin, so that it cuts them, and from where the search starts.
pub fn ends_of_traces(cases: &mut Cases, r: &mut Random, most: usize) {
    let step = if most < 100 { 50 } else { 1 };
    for (number, filler) in fillers(r).iter().enumerate().step_by(step.min(4)) {
        let (bytes, place) = trace(number as u64, filler, FAR, FAR);
        for end in (place..=place + FAR).step_by(step) {
            cases.block(b'T', &bytes[..end as usize]);
            for back in [0, 1, 7, 8, 9, 12, 13, 14, 19, 20, 21, 31, 32, 33, 43, 44, 45, 64, 77, FAR] {
                ask(cases, b'n', &[end - back, DEFAULT]);
                ask(cases, b'n', &[place - back, DEFAULT]);
            }
        }
    }
}

/// One false candidate, and two, at every distance before a boundary and from each other.
pub fn candidates(cases: &mut Cases, r: &mut Random, most: usize) {
    let step = if most < 100 { 25 } else { 1 };
    let (bytes, place) = trace(r.below(8), &[0x5B], 130, 40);
    cases.block(b'T', &bytes);
    let put = |cases: &mut Cases, at: u64, b: u8| cases.add(b'P', &[&(at as u32).to_le_bytes(), &[b]]);
    for far in (1..=FAR).step_by(step) {
        for apart in (0..=20).chain([31, 32, 33, 44]).step_by(step) {
            let first = place - far;
            let changed = [first + 7, first + 12, first - apart + 7, first - apart + 12];
            for (at, b) in changed.iter().zip([r.of(&[8, 9, 0x48, 0x89, 0xC8, 0xC9]), 0, r.of(&[8, 9, 0xC8]), 0]) {
                put(cases, *at, b);
            }
            for start in [place - 130, first - apart, first, first + 1] {
                ask(cases, b'n', &[start, DEFAULT]);
            }
            for at in changed {
                put(cases, at, bytes[at as usize]);
            }
        }
    }
}
