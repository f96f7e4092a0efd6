//! Spans and seeks: traces from a few bytes to some megabytes, on which bounds cross and windows miss.
use crate::leaves::{TICKS_2000, TICKS_2100};
use crate::random::Random;
use crate::traces::{Trace, ask, ends, good_header, record};
use crate::Cases;

/// The milliseconds of some ticks.
fn millis(ticks: u64) -> u64 {
    (ticks - 621_355_968_000_000_000) / 10_000
}

/// A trace under way, with the times of its records.
struct Under {
    trace: Trace,
    times: Vec<u64>,
    ticks: u64,
    sorted: bool,
}

impl Under {
    fn new(r: &mut Random) -> Self {
        let trace = Trace { bytes: good_header(), starts: Vec::new() };
        let sorted = r.chance(70);
        Under { trace, times: Vec::new(), ticks: r.between(TICKS_2000, TICKS_2100 - 1_000_000_000_000_000), sorted }
    }

    /// One record more, with a payload of so many zeros, which hide nothing; at times at the same millisecond as the last.
    fn record(&mut self, r: &mut Random, length: usize) {
        self.ticks = match r.below(4) {
            _ if !self.sorted => r.between(TICKS_2000, TICKS_2100),
            0 => self.ticks,
            1 => self.ticks + 10_000,
            _ => self.ticks + r.below(1_000_000_000),
        };
        self.trace.starts.push(self.trace.bytes.len());
        self.times.push(millis(self.ticks));
        self.trace.bytes.extend(record(self.ticks | r.below(4) << 62, 0, length as i32, &vec![0; length], ends(4)[0]));
    }

    fn gap(&mut self, length: usize) {
        self.trace.bytes.extend(vec![0; length]);
    }

    /// A time to seek: around a record's, or at the ends of what can be asked.
    fn target(&self, r: &mut Random) -> u64 {
        match r.below(12) {
            0 => r.of(&[0, 1, u64::MAX, 1 << 63, (1 << 63) - 1]),
            1 => r.between(946_684_800_000, 4_112_352_000_000),
            _ if self.times.is_empty() => r.u64(),
            _ => r.of(&self.times).wrapping_add(r.of(&[0, 0, 1, u64::MAX])),
        }
    }

    /// Spans, seeks and single steps from any state.
    fn questions(&self, cases: &mut Cases, r: &mut Random, times: usize) {
        let n = self.trace.bytes.len() as u64;
        cases.block(b'T', &self.trace.bytes);
        ask(cases, b's', &[]);
        for _ in 0..times {
            let t = self.target(r);
            ask(cases, b'k', &[t]);
            ask(cases, b'h', &[t]);
        }
        for _ in 0..times * 2 {
            let t = self.target(r);
            let high = r.chance(3);
            let mut place = || match r.below(8) {
                0 => r.of(&[0, 2047, 2048, 2049, u64::MAX, u64::MAX - 1_048_576, u64::MAX - 1_048_575, 1 << 63]),
                1 => n.wrapping_add(r.of(&[0, 1, u64::MAX])),
                2 => r.below(n + 70_000),
                _ if self.trace.starts.is_empty() => r.below(n + 1),
                _ => r.of(&self.trace.starts) as u64,
            };
            // near the end of what a number can hold, a middle is found whose search is refused
            let (a, b) = if high { (u64::MAX - 200_000, u64::MAX - 1) } else { (place(), place()) };
            let tag = r.chance(30) as u8;
            cases.add(b'j', &[&t.to_le_bytes(), &[tag], &a.to_le_bytes(), &b.to_le_bytes()]);
        }
    }
}

/// Traces of no to twenty records, where everything is near everything.
pub fn small(cases: &mut Cases, r: &mut Random, most: usize) {
    for k in 0..most.div_ceil(4) {
        let mut u = Under::new(r);
        for _ in 0..r.of(&[k % 4, 2, 20]) {
            let length = r.between(1, 60) as usize;
            u.record(r, length);
            if r.chance(10) {
                let length = r.between(1, 40) as usize;
                u.gap(length);
            }
        }
        u.questions(cases, r, 25);
    }
}

/// Traces of 300 to 700 KB with records of all lengths, so that halvings are made; the longer ones lie across hi, and bounds cross.
pub fn halved(cases: &mut Cases, r: &mut Random, most: usize) {
    for k in 0..most / 100 {
        let mut u = Under::new(r);
        let size = r.between(300_000, 700_000) as usize;
        let long = k % 2 == 0;
        while u.trace.bytes.len() < size {
            let length = match r.below(20) {
                0 => r.between(1, 70_000),
                1 if long => r.between(20_000, 300_000),
                _ if long => r.between(1, 20_000),
                _ => r.between(1, 300),
            } as usize;
            u.record(r, length);
            if r.chance(2) {
                let length = r.between(1, 2_000) as usize;
                u.gap(length);
            }
        }
        u.questions(cases, r, 150);
    }
}

/// Some records of up to 3,000 bytes.
fn some(u: &mut Under, r: &mut Random) {
    for _ in 0..r.between(3, 40) {
        let length = r.between(1, 3_000) as usize;
        u.record(r, length);
    }
}

/// A gap larger than the window at the start, so that the first record is outside the first window, in the middle, and at the end.
pub fn gaps(cases: &mut Cases, r: &mut Random, most: usize) {
    for k in 0..(most / 100).min(3) {
        let mut u = Under::new(r);
        if k > 0 {
            some(&mut u, r);
        }
        u.gap(1_048_576 + r.below(60_000) as usize);
        if k < 2 {
            some(&mut u, r);
        }
        u.questions(cases, r, 20);
    }
}

/// A payload of the largest length, in the middle and at the end, the latter behind a gap just below the window.
pub fn longest(cases: &mut Cases, r: &mut Random, most: usize) {
    for k in 0..(most / 100).min(2) {
        let mut u = Under::new(r);
        if k > 0 {
            u.gap(1_048_576 - r.between(1, 20) as usize);
        }
        some(&mut u, r);
        u.record(r, 1_048_576);
        if k == 0 {
            some(&mut u, r);
        }
        u.questions(cases, r, 20);
    }
}

/// One trace of nearly 4 MB: long records, a payload of the largest length, and a gap larger than the window, in some order.
pub fn large(cases: &mut Cases, r: &mut Random, most: usize) {
    if most < 100 {
        return;
    }
    let mut u = Under::new(r);
    some(&mut u, r);
    let gap_first = r.chance(50);
    for k in 0..2 {
        if (k == 0) == gap_first {
            u.gap(1_048_576 + r.below(60_000) as usize);
        } else {
            u.record(r, 1_048_576);
        }
        some(&mut u, r);
    }
    while u.trace.bytes.len() < 3_700_000 {
        let length = r.between(1, 200_000) as usize;
        u.record(r, length);
    }
    u.questions(cases, r, 20);
}
