//! The plain seek: traces on which the premises of 02's request 10 hold, and traces on which they do not.
use crate::leaves::{TICKS_2000, TICKS_2100};
use crate::random::Random;
use crate::traces::{ask, ends, good_header, record, some_record};
use crate::{Cases, kinds};
use std::ops::Range;

/// Ticks in a millisecond, and the most between two records.
const MILLISECOND: u64 = 10_000;
const JUMP: u64 = 1_000_000_000;
/// The default window, and the sizes of records that are larger.
const WINDOW: usize = 1_048_576;
const LARGER: Range<u64> = 1_048_577..1_048_591;
/// What a record takes beside its payload.
const AROUND: usize = 14;

/// A valid record of any kind: a PTI payload opens as it has to.
fn valid(r: &mut Random, ticks: u64) -> Vec<u8> {
    let mut bytes = some_record(r, ticks);
    if [1, 2].contains(&kinds()[bytes[bytes.len() - 1] as usize]) {
        bytes[AROUND - 1] = 0x5B;
    }
    bytes
}

/// A time, asked of the plain seek, the whole one and the stepped one.
fn ask_each(cases: &mut Cases, time: i64) {
    b"lkh".iter().for_each(|letter| ask(cases, *letter, &[time as u64]));
}

fn ask_all(cases: &mut Cases, times: &[i64]) {
    times.iter().for_each(|t| ask_each(cases, *t));
}

/// A trace under way, with the milliseconds of its records.
struct Under {
    bytes: Vec<u8>,
    times: Vec<i64>,
    ticks: u64,
    end: u8,
}

impl Under {
    fn new(r: &mut Random) -> Self {
        let ticks = r.between(TICKS_2000, TICKS_2100 - 1_000_000 * JUMP);
        Under { bytes: good_header(), times: Vec::new(), ticks, end: ends(4)[0] }
    }

    /// One that at times begins with the earliest time that there is, or reaches the latest, with or without bytes before its records.
    fn of_any_time(r: &mut Random) -> Self {
        let mut u = Under::new(r);
        match r.below(8) {
            0 => u.ticks = TICKS_2000,
            1 => u.ticks = TICKS_2100 - r.below(10) * MILLISECOND,
            _ => {}
        }
        u.before(r);
        u
    }

    /// Ticks of a millisecond that is not before the last one: at times the same, whose ticks may go back.
    fn later(&mut self, r: &mut Random) -> u64 {
        self.ticks = match r.below(5) {
            0 => self.ticks,
            1 => self.ticks - self.ticks % MILLISECOND + r.below(MILLISECOND),
            2 => self.ticks + MILLISECOND,
            _ => self.ticks + r.below(JUMP),
        }
        .min(TICKS_2100);
        self.ticks
    }

    /// The trace's next bytes are a record of these ticks.
    fn add(&mut self, ticks: u64, record: Vec<u8>) {
        self.times.push((ticks as i64 - 621_355_968_000_000_000) / MILLISECOND as i64);
        self.bytes.extend(record);
    }

    /// A valid record of any kind.
    fn any(&mut self, r: &mut Random) {
        let ticks = self.later(r);
        self.add(ticks, valid(r, ticks));
    }

    /// A record of so many bytes in all, with one byte over and over, which hides nothing.
    fn sized(&mut self, r: &mut Random, size: usize) {
        let ticks = self.later(r);
        let payload = vec![r.of(&[0, 0, 0, 0x5B, 9]); size - AROUND];
        self.add(ticks, record(ticks | r.below(4) << 62, r.byte(), payload.len() as i32, &payload, self.end));
    }

    /// A record of a size in bytes, and a time well after it, so that there are many times between it and the next.
    fn then_later(&mut self, r: &mut Random, size: usize) {
        self.sized(r, size);
        self.ticks = (self.ticks + r.between(JUMP, 10 * JUMP)).min(TICKS_2100);
    }

    /// Records that take exactly so many bytes, none or 15 at least; so many of a hundred are long.
    fn fill(&mut self, r: &mut Random, mut bytes: usize, long: u64) {
        while bytes > 0 {
            let size = AROUND + if r.chance(long) { r.between(10_000, 150_000) } else { r.between(1, 2_000) } as usize;
            // what is too little for one more goes into this one
            let size = if bytes < size + AROUND + 1 { bytes } else { size };
            self.sized(r, size);
            bytes -= size;
        }
    }

    /// Bytes that are no record: zeros, or any.
    fn junk(&mut self, r: &mut Random, most: u64) {
        let n = r.between(1, most) as usize;
        let bytes = if r.chance(50) { vec![0; n] } else { r.bytes(n) };
        self.bytes.extend(bytes);
    }

    /// Before the first record: most often nothing, else junk, at times after a record or two that are valid and begin no boundary.
    fn before(&mut self, r: &mut Random) {
        if r.chance(60) {
            return;
        }
        for _ in 0..r.below(3) {
            let ticks = r.between(TICKS_2000, TICKS_2100);
            self.bytes.extend(valid(r, ticks));
        }
        self.junk(r, 60);
    }

    /// Every record's time, one less and one more, some between them, negative ones, and the ends of what can be asked.
    fn around_all(&self, r: &mut Random) -> Vec<i64> {
        let mut all: Vec<i64> = self.times.iter().flat_map(|t| [t - 1, *t, t + 1]).collect();
        all.extend([i64::MIN, i64::MIN + 1, -1, 0, 1, i64::MAX - 1, i64::MAX, r.u64() as i64, -r.of(&self.times)]);
        all.extend((0..16).map(|_| self.within(r, 0..self.times.len())));
        all.sort();
        all.dedup();
        all
    }

    /// A time after that of the record before one of these and not after its own.
    fn within(&self, r: &mut Random, of: Range<usize>) -> i64 {
        let k = r.between(of.start as u64, of.end as u64 - 1) as usize;
        let (before, own) = (self.times[k.saturating_sub(1)], self.times[k]);
        own - r.below(own.abs_diff(before).max(1)) as i64
    }

    /// A time around that of one of these records, or before it.
    fn near(&self, r: &mut Random, of: Range<usize>) -> i64 {
        if r.chance(50) { self.within(r, of) } else { r.of(&self.times[of]) + r.of(&[-1, 0, 1]) }
    }

    /// So many seeks to times near some of the records.
    fn ask_near(&self, cases: &mut Cases, r: &mut Random, times: usize, of: Range<usize>) {
        for _ in 0..times {
            ask_each(cases, self.near(r, of.clone()));
        }
    }
}

/// The premises hold: traces of one to forty records, each asked around every record.
pub fn small(cases: &mut Cases, r: &mut Random, most: usize) {
    for k in 0..most.div_ceil(4) {
        let mut u = Under::of_any_time(r);
        let many = k as u64 % 40 + 1;
        for _ in 0..r.of(&[1, 2, 3, many, many, many]) {
            u.any(r);
        }
        cases.block(b'T', &u.bytes);
        ask_all(cases, &u.around_all(r));
    }
}

/// The premises hold: traces of 300 to 700 KB with long records. In every second, two long ones open the trace, and the first middle is
/// just before the second one's end: seeks to the times up to the next record cross.
pub fn halved(cases: &mut Cases, r: &mut Random, most: usize) {
    for k in 0..most / 100 {
        let mut u = Under::new(r);
        u.before(r);
        let mut crossing = 0;
        if k % 2 == 0 {
            let [a, b] = [0; 2].map(|_| r.between(75_000, 160_000) as usize);
            let back = 2 * r.between(0, 2_000) as usize;
            u.then_later(r, a.max(b));
            u.then_later(r, a.min(b));
            u.fill(r, a + b - back, 1);
            crossing = most / 2;
        } else {
            let (half, long) = (r.between(20_000, 200_000) as usize, [1, 20][k / 2 % 2]);
            u.fill(r, half, long);
            for size in [65_535, 65_536, 65_537, 65_538] {
                u.then_later(r, size);
            }
            u.fill(r, half, long);
        }
        cases.block(b'T', &u.bytes);
        u.ask_near(cases, r, crossing, 2..3);
        u.ask_near(cases, r, most / 2, 0..u.times.len());
        ask_all(cases, &[i64::MIN, -1, 0, i64::MAX]);
    }
}

/// The premises hold: a trace with records larger than the window. A seek into such a payload searches up to the whole window, so each
/// layout puts the first middle where it matters, and asks seldom for times that need more.
pub fn large(cases: &mut Cases, r: &mut Random, most: usize) {
    if most < 100 {
        return;
    }
    let [a, b] = [0; 2].map(|_| r.between(LARGER.start, LARGER.end - 1) as usize);
    let few = most / 10;
    let mut u = Under::new(r);
    match r.below(5) {
        // two of them first: the first middle is just before the second one's end, and the bounds cross
        0 => {
            let back = 2 * r.between(30_000, 40_000) as usize;
            u.then_later(r, a);
            u.then_later(r, b);
            u.fill(r, a + b - back, 1);
            cases.block(b'T', &u.bytes);
            u.ask_near(cases, r, most, 2..3);
            u.ask_near(cases, r, few / 3, 0..2);
            u.ask_near(cases, r, most, 3..u.times.len());
        }
        // two of them inside: the first middle is at the second one's start, or some bytes before
        1 => {
            let (front, back) = (r.between(300_000, 900_000) as usize, 2 * r.below(40) as usize);
            u.fill(r, front, 1);
            let second = u.times.len() + 1;
            u.then_later(r, a);
            u.then_later(r, b);
            u.fill(r, front + a - b - back, 1);
            cases.block(b'T', &u.bytes);
            u.ask_near(cases, r, few, 0..second + 1);
            u.ask_near(cases, r, most, second + 1..u.times.len());
        }
        // the first middle is so near behind its start that the window ends before the next record; a long record is before it, so that
        // bounds cross all the same
        2 => {
            let (a, long) = (LARGER.end as usize - 1, r.between(150_000, 300_000) as usize);
            let (tail, behind) = (r.between(20_000, 900_000) as usize, r.between(1, (a - WINDOW) as u64) as usize);
            u.fill(r, a + tail - 2 * behind - long, 1);
            u.then_later(r, long);
            u.then_later(r, a);
            u.fill(r, tail, 1);
            cases.block(b'T', &u.bytes);
            u.ask_near(cases, r, few, 0..u.times.len());
        }
        // it is the last one, and the first middle is at its start, or some bytes before
        3 => {
            let back = 2 * r.below(40) as usize;
            u.fill(r, a + back, 1);
            u.then_later(r, a);
            cases.block(b'T', &u.bytes);
            u.ask_near(cases, r, most, 0..u.times.len());
            u.ask_near(cases, r, most, u.times.len() - 1..u.times.len());
        }
        // anywhere
        _ => {
            let [front, between, tail] = [0; 3].map(|_| r.between(15, 300_000) as usize);
            u.fill(r, front, 10);
            u.then_later(r, a);
            u.fill(r, between, 10);
            u.then_later(r, b);
            u.fill(r, tail, 10);
            cases.block(b'T', &u.bytes);
            u.ask_near(cases, r, few / 3, 0..u.times.len());
        }
    }
    ask_all(cases, &[i64::MIN, i64::MAX]);
}

/// What does not hold: junk between records, times that go back, boundaries inside payloads, junk or a cut at the end.
#[derive(Clone, Copy)]
struct Off {
    gaps: bool,
    back: bool,
    hidden: bool,
    end: bool,
}

impl Off {
    /// Each alone, and after these any of them.
    fn some(k: usize, r: &mut Random) -> Self {
        let n = [1, 2, 4, 8].get(k % 8).copied().unwrap_or(r.below(16));
        let [gaps, back, hidden, end] = [1, 2, 4, 8].map(|bit| n & bit != 0);
        Off { gaps, back, hidden, end }
    }
}

impl Under {
    /// A record with others in its payload after so many bytes: three and as many bytes again at most, which are a boundary of their own,
    /// or one that ends where this one ends. Their times are any.
    fn hiding(&mut self, r: &mut Random, before: u64) {
        let end = self.end;
        let inside = |r: &mut Random| record(r.between(TICKS_2000, TICKS_2100), r.byte(), 2, b"[]", end);
        let mut payload = vec![0x5B; before as usize];
        if r.chance(50) {
            (0..3).for_each(|_| payload.extend(inside(r)));
            payload.extend(vec![0; r.between(1, before) as usize]);
        } else {
            payload.extend(inside(r));
            payload.pop();
        }
        let ticks = self.later(r);
        self.add(ticks, record(ticks, r.byte(), payload.len() as i32, &payload, end));
    }

    /// The time goes back.
    fn back(&mut self, r: &mut Random) {
        self.ticks -= r.below(10 * JUMP).min(self.ticks - TICKS_2000);
    }

    /// So many records, most of up to a size, with these faults among them.
    fn off(&mut self, r: &mut Random, off: Off, records: u64, size: u64) {
        for k in 0..records {
            if off.back && r.chance(20) {
                self.back(r);
            }
            let length = r.between(1, size);
            match r.below(4) {
                0 | 1 if off.hidden => self.hiding(r, length),
                0 => self.any(r),
                _ => self.sized(r, AROUND + length as usize),
            }
            if off.gaps && (r.chance(15) || k == records / 2) {
                self.junk(r, 40);
            }
        }
        if off.end && r.chance(50) {
            self.junk(r, 30);
        } else if off.end {
            self.bytes.truncate(self.bytes.len() - r.between(1, 14) as usize);
        }
    }

}

/// Faults in traces of a few records, and damaged copies of them.
fn small_off(cases: &mut Cases, r: &mut Random, most: usize) {
    for k in 0..most.div_ceil(4) {
        let mut u = Under::of_any_time(r);
        let (off, records) = (Off::some(k, r), r.of(&[1, 3, 6, 12]));
        u.off(r, off, records, 40);
        cases.block(b'T', &u.bytes);
        let times = u.around_all(r);
        ask_all(cases, &times);
        for _ in 0..k % 3 {
            let at = r.between(2048, u.bytes.len() as u64 - 1) as u32;
            let b = if r.chance(60) { r.of(&[0x00, 0x5B, 0x5D, 0xFF, 0x08]) } else { r.byte() };
            cases.add(b'P', &[&at.to_le_bytes(), &[b]]);
            ask_all(cases, &times);
        }
    }
}

/// The end at every byte of the last records of a trace, so that it cuts them, and traces without records.
fn cut_off(cases: &mut Cases, r: &mut Random, step: usize) {
    let mut u = Under::new(r);
    (0..3).for_each(|_| u.any(r));
    let from = u.bytes.len();
    (0..3).for_each(|_| u.sized(r, 30));
    let times = u.around_all(r);
    let ends = (from..=u.bytes.len()).step_by(step);
    for n in ends.chain([0, 1, 2047, 2048, 2049, 2061, 2062, 2063]) {
        cases.block(b'T', &u.bytes[..n]);
        ask_all(cases, &times);
    }
}

/// Faults in traces of some 100 KB, on which the whole seek takes halvings and has other answers.
fn halved_off(cases: &mut Cases, r: &mut Random) {
    for k in 0..8 {
        let mut u = Under::new(r);
        let (off, size) = (Off::some(k, r), r.of(&[1_000, 3_000, 8_000]));
        u.off(r, off, 180_000 / size, size);
        cases.block(b'T', &u.bytes);
        let times: Vec<i64> = (0..150).map(|_| u.near(r, 0..u.times.len())).collect();
        ask_all(cases, &times);
    }
}

/// Boundaries inside a payload that the first middle is in, and times that go back once, before it.
fn middle_off(cases: &mut Cases, r: &mut Random) {
    for k in 0..8 {
        let mut u = Under::new(r);
        u.fill(r, 35_000, 0);
        if k % 2 == 0 {
            u.hiding(r, 20_000);
        } else {
            u.back(r);
            u.fill(r, 20_000, 0);
        }
        u.fill(r, 16_000, 0);
        cases.block(b'T', &u.bytes);
        let times: Vec<i64> = (0..150).map(|_| u.near(r, 0..u.times.len())).collect();
        ask_all(cases, &times);
    }
}

/// The first record at the last offset of the first window, and then, once it is damaged, no first record.
fn far_off(cases: &mut Cases, r: &mut Random) {
    let mut u = Under::new(r);
    u.bytes.extend(vec![0; WINDOW - 1]);
    let first = u.bytes.len() as u32;
    (0..5).for_each(|_| u.sized(r, 20));
    let times = u.around_all(r);
    cases.block(b'T', &u.bytes);
    ask_all(cases, &times[times.len() / 4..]);
    cases.add(b'P', &[&(first + 7).to_le_bytes(), &[0]]);
    ask_all(cases, &times[times.len() / 4..]);
}

/// The premises do not hold, each alone and together.
pub fn off(cases: &mut Cases, r: &mut Random, most: usize) {
    let few = most < 100;
    small_off(cases, r, most);
    cut_off(cases, r, if few { 50 } else { 1 });
    if !few {
        halved_off(cases, r);
        middle_off(cases, r);
        far_off(cases, r);
    }
}
