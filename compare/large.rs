//! The program of compare/large: traces of exactly the longest length that is read, and the same calls on docs/src and on the port's library
//! about each, every answer compared whole (bindings/rust/tests/sides). It takes a seed.
#![no_main]
#[path = "cases/random.rs"]
#[allow(dead_code)] // compare/cases takes the rest
mod random;
#[path = "../bindings/rust/tests/sides/mod.rs"]
mod sides;
#[path = "../bench/traces.rs"]
#[allow(dead_code)] // bench/both.rs takes the rest
mod traces;

use std::io::{IsTerminal, Write};

use random::Random;
use sides::{Calls, HEADER};
use traces::{FIRST_MS, Kind, Records};
use zlf::cursor::Seam;
use zlf::sys;
use zlf::zlf::{KINDS, ZLF_VERSION};
use zniff_core::resync::{DEFAULT_WINDOW, next_record_at, record_time_at};
use zniff_core::source::SliceSource;

const LIMIT: usize = 1_073_741_824;
/// A payload's largest length, and what a record has around its payload.
const LONGEST: usize = 1_048_576;
const AROUND: usize = 14;

/// Places that records, searches and pages are asked from, and times that are sought, in each trace.
const PLACES: usize = 400;
const TIMES: usize = 60;

// ---- the traces

/// Ordinary records, and a last one that ends with the trace; and how many they are.
fn ordinary() -> (Vec<u8>, u64) {
    let (mut trace, mut records) = (Vec::with_capacity(LIMIT + 1), Records::new(Kind::Ordinary));
    trace.extend(traces::header());
    while trace.len() < LIMIT - 4096 {
        records.next(&mut trace);
    }
    let rest = LIMIT - trace.len() - AROUND;
    traces::numbered(&mut trace, records.n, 4, &vec![0; rest]);
    (trace, records.n + 1)
}

/// Large records with ordinary ones between, and how many they all are. A large one's payload is noise, near misses of the record test,
/// records, or the Zniffer's frames.
fn large(r: &mut Random) -> (Vec<u8>, u64) {
    let mut fills: Vec<Vec<u8>> = ["noise", "zeros", "5b", "ticks", "length", "end", "first", "chain", "records"]
        .map(|what| traces::repeated(what, LONGEST)[HEADER as usize..].to_vec())
        .into();
    fills.push(traces::stream(LONGEST));
    let (mut trace, mut records) = (Vec::with_capacity(LIMIT + 1), Records::new(Kind::Ordinary));
    trace.extend(traces::header());
    loop {
        let left = LIMIT - trace.len();
        let is_last = left <= LONGEST + AROUND;
        let size = match r.below(4) {
            _ if is_last => left - AROUND,
            0 => r.between(1, LONGEST as u64) as usize,
            1 => r.between(65_000, 66_000) as usize,
            _ => LONGEST,
        };
        // what is left after it is room enough for a last one
        let size = if is_last { size } else { size.min(left - 2 * AROUND - 1) };
        let which = r.below(fills.len() as u64) as usize;
        let kind = if which + 1 == fills.len() { 3 } else { r.of(&[1, 2, 4]) };
        let mut payload = fills[which][..size].to_vec();
        if kind < 3 {
            payload[0] = 0x5B;
        }
        traces::numbered(&mut trace, records.n, kind, &payload);
        records.n += 1;
        if is_last {
            return (trace, records.n);
        }
        let between = if r.chance(30) { r.below(2_000) } else { 0 };
        for _ in 0..between {
            if LIMIT - trace.len() > 2 * LONGEST {
                records.next(&mut trace);
            }
        }
    }
}

/// Damages a trace: holes of many sizes, from a byte to some windows, and one at the end that is longer than a window. How many there are.
fn damage(trace: &mut [u8], r: &mut Random) -> usize {
    let sizes = [1, 2, 13, 14, 15, 100, 5_000, 65_536, LONGEST - 1, LONGEST, LONGEST + 1, LONGEST + 60_000, 5 * LONGEST];
    let noise = traces::repeated("noise", LONGEST);
    let mut hole = |from: usize, size: usize, way: u64| {
        for (n, b) in trace[from..from + size].iter_mut().enumerate() {
            *b = match way {
                0 => 0,
                1 => !*b,
                _ => noise[HEADER as usize + n % LONGEST],
            };
        }
    };
    for n in 0..20 {
        for size in sizes {
            let from = r.between(HEADER + 1_000_000, (LIMIT - size) as u64) as usize;
            hole(from, size, n % 3);
        }
    }
    hole(LIMIT - LONGEST - 400_000, LONGEST + 400_000, 0);
    20 * sizes.len() + 1
}

// ---- the comparisons

/// How many comparisons passed and failed; and which is under way.
struct Run {
    passed: u64,
    failed: u64,
    trace: &'static str,
}

impl Run {
    /// One comparison: it gives what was compared, or panics where the two sides differ.
    fn compared(&mut self, what: &str, f: impl FnOnce(&mut Calls) -> String) {
        // a counter on a terminal, which the line of the comparison then takes the place of
        let (name, shown) = (format!("{}, {what}", self.trace), std::io::stderr().is_terminal());
        let counter = move |equal: u64| {
            if shown {
                eprint!("\r\x1b[K{name}: {equal} calls");
            }
        };
        counter(0);
        let mut calls = Calls { equal: 0, crossed: 0, every: Box::new(counter) };
        let came = sides::tried(|| f(&mut calls));
        if shown {
            eprint!("\r\x1b[K");
        }
        match came {
            Ok(text) => {
                self.passed += 1;
                println!("passed: {}, {what}: {text}; {} calls equal", self.trace, calls.equal);
            }
            Err(said) => {
                self.failed += 1;
                println!("FAILED: {}, {what}, after {} calls: {said}", self.trace, calls.equal);
            }
        }
        std::io::stdout().flush().unwrap();
    }

    /// The comparisons that every trace has. It was made of so many records.
    fn all(&mut self, trace: &[u8], r: &mut Random, made: u64) {
        assert_eq!(trace.len(), LIMIT);
        self.compared("seam check, and again behind each break", |calls| {
            let (breaks, records) = seams(calls, trace);
            if breaks == 0 {
                is(calls, made, records);
            }
            format!("{breaks} breaks, {records} records")
        });
        self.compared("in sequence", |calls| format!("{} records", sides::sequence(calls, trace)));
        self.compared("span and first record", |calls| {
            let (first, last) = sides::span(calls, trace).unwrap();
            format!("{first} to {last} ms")
        });
        let last_ms = FIRST_MS + 10 * (made as i64 - 1);
        let mut times = vec![i64::MIN, -1, 0, FIRST_MS - 1, FIRST_MS, FIRST_MS + 1, last_ms - 1, last_ms, last_ms + 1, i64::MAX];
        for _ in 0..TIMES {
            times.push(r.between(FIRST_MS as u64, last_ms as u64) as i64);
            // and the time of a record near a place, so that large ones are sought as often as they are long
            let found = record_time_at(&mut SliceSource::new(trace), r.below(LIMIT as u64)).unwrap();
            times.extend(found.map(|(_, ms)| ms + r.below(2) as i64));
        }
        self.compared("seeks, stepped and whole, with their halvings", |calls| {
            let mut most = 0;
            for time in &times {
                let halvings = sides::seek(calls, trace, *time).unwrap();
                let whole = unsafe { sys::zlf_seek(KINDS.as_ptr(), trace.as_ptr(), trace.len(), *time) };
                calls.same(halvings, whole.halvings);
                most = most.max(halvings);
            }
            format!("{} times, at most {most} halvings, bounds crossed in {}", times.len(), calls.crossed)
        });
        // a plain seek walks the trace, so a few times are enough
        let walked = &times[..times.len().min(14)];
        self.compared("plain seeks", |calls| {
            walked.iter().for_each(|time| sides::plain(calls, trace, *time));
            format!("{} times", walked.len())
        });
        let mut places: Vec<u64> = vec![0, HEADER - 1, HEADER, HEADER + 1, LIMIT as u64 - 1, LIMIT as u64, LIMIT as u64 + 1, u64::MAX];
        places.extend((0..PLACES).map(|_| r.below(LIMIT as u64)));
        self.compared("records, searches and times from places", |calls| {
            for place in &places {
                sides::record(calls, trace, *place);
                sides::search(calls, trace, *place, DEFAULT_WINDOW);
                sides::search(calls, trace, *place, r.below(200_000));
                sides::time(calls, trace, *place);
                // the record found, as one that begins there
                let found = next_record_at(&mut SliceSource::new(trace), (*place).min(LIMIT as u64), DEFAULT_WINDOW).unwrap();
                found.into_iter().for_each(|at| sides::record(calls, trace, at));
            }
            format!("{} places", places.len())
        });
        self.compared("pages from places", |calls| {
            let (mut pages, mut rows) = (0, 0);
            for place in &places {
                let came = sides::pages(calls, trace, *place, r.of(&[0, 1, 2, 7, 64, 64, 1_000]), 3);
                (pages, rows) = (pages + came.0, rows + came.1);
            }
            format!("{} places, {pages} pages, {rows} rows", places.len())
        });
    }
}

/// The seam check from the first record on, and again from the first record found behind each break: the breaks, and the records of all.
fn seams(calls: &mut Calls, trace: &[u8]) -> (u64, u64) {
    let (mut at, mut breaks, mut all) = (HEADER, 0, 0);
    loop {
        match sides::seam(calls, trace, at).unwrap() {
            Seam::Unbroken { records } => return (breaks, all + records),
            Seam::Broken { place, records } => (at, breaks, all) = (place, breaks + 1, all + records),
        }
        // where a window has no record, the next one is asked
        while let None = next_record_at(&mut SliceSource::new(trace), at, DEFAULT_WINDOW).unwrap() {
            sides::search(calls, trace, at, DEFAULT_WINDOW);
            at += DEFAULT_WINDOW;
            if at >= LIMIT as u64 {
                return (breaks, all);
            }
        }
        sides::search(calls, trace, at, DEFAULT_WINDOW);
        at = next_record_at(&mut SliceSource::new(trace), at, DEFAULT_WINDOW).unwrap().unwrap();
    }
}

/// What has to be, and what is.
fn is<T: std::fmt::Debug + PartialEq>(calls: &mut Calls, expected: T, got: T) {
    assert!(expected == got, "{expected:?} is expected, and {got:?} given");
    calls.equal += 1;
}

/// One byte past the limit: each function on a trace gives refusal 1, every other number as zero, the reader's place and count as given, and
/// leaves the table as it was.
fn refusals(calls: &mut Calls, trace: &[u8]) -> String {
    assert_eq!(trace.len(), LIMIT + 1);
    let (kinds, at, n) = (KINDS.as_ptr(), trace.as_ptr(), trace.len());
    let (first, none) = (HEADER as usize, sys::zlf_state { searching: false, lo: 0, hi: 0, at: 0 });
    let begun = sys::zlf_state { searching: true, lo: first, hi: n, at: 0 };
    let row = sys::zlf_row { record: 7, mpdu_len: 7, ..Default::default() };
    let mut table = [row; 100];
    let next = sys::zlf_next_record {
        refusal: 1,
        is_record: false,
        offset: 0,
        ticks: 0,
        outgoing: false,
        session: 0,
        end_byte: 0,
        kind: 0,
        payload: 0,
        size: 0,
        negative: 0,
        place: first,
        count: 5,
    };
    let record = sys::zlf_record_answer {
        refusal: 1,
        is_valid: false,
        offset: 0,
        ticks: 0,
        outgoing: false,
        session: 0,
        size: 0,
        end_byte: 0,
        kind: 0,
        next: 0,
        millis: 0,
    };
    let step = sys::zlf_step_answer { refusal: 1, answer: 0, state: none, is_found: false, offset: 0 };
    let page = sys::zlf_page_answer { refusal: 1, start: 0, size: 0, is_more: false, next: 0 };
    unsafe {
        is(calls, sys::zlf_opening { refusal: 1, version: 0 }, sys::zlf_open(at, n, ZLF_VERSION));
        is(calls, sys::zlf_sequence { refusal: 1, version: 0, place: 0, count: 0 }, sys::zlf_open_sequence(at, n, ZLF_VERSION));
        is(calls, next, sys::zlf_next(kinds, at, n, first, 5));
        is(calls, record, sys::zlf_record(kinds, at, n, first));
        is(calls, sys::zlf_search_answer { refusal: 1, is_found: false, offset: 0, judged: 0 }, sys::zlf_search(kinds, at, n, first, LONGEST));
        is(calls, sys::zlf_span_answer { refusal: 1, is_found: false, first: 0, last: 0 }, sys::zlf_span(kinds, at, n));
        is(calls, sys::zlf_seek_answer { refusal: 1, is_found: false, offset: 0, halvings: 0 }, sys::zlf_seek(kinds, at, n, FIRST_MS));
        is(calls, sys::zlf_plain_answer { refusal: 1, is_found: false, offset: 0 }, sys::zlf_plain_seek(kinds, at, n, FIRST_MS));
        is(calls, sys::zlf_start_answer { refusal: 1, state: none }, sys::zlf_seek_start(kinds, at, n));
        is(calls, step, sys::zlf_seek_step(kinds, at, n, FIRST_MS, begun));
        is(calls, page, sys::zlf_page(kinds, at, n, first, 64, table.as_mut_ptr(), table.len()));
        is(calls, sys::zlf_seam_answer { refusal: 1, is_unbroken: false, place: 0, records: 0 }, sys::zlf_seam(kinds, at, n, first));
    }
    assert!(table == [row; 100], "the table has changed");
    "refusal 1 and no more".into()
}

#[unsafe(no_mangle)]
pub extern "C" fn main(_: i32, _: *const *const std::ffi::c_char) -> i32 {
    let seed: u64 = std::env::args().nth(1).unwrap().parse().unwrap();
    println!("compare/large: the port beside the Rust on traces of {LIMIT} bytes, seed {seed}");
    sides::keep_panics();
    let (mut r, mut run) = (Random::new(seed), Run { passed: 0, failed: 0, trace: "ordinary records" });

    let (mut trace, records) = ordinary();
    run.all(&trace, &mut r, records);
    run.compared("all pages of 64", |calls| {
        let (pages, rows) = sides::pages(calls, &trace, HEADER, 64, u64::MAX);
        format!("{pages} pages, {rows} rows")
    });

    run.trace = "holes";
    let holes = damage(&mut trace, &mut r);
    println!("{holes} holes of 1 to {} bytes in the same trace", 5 * LONGEST);
    run.all(&trace, &mut r, records);
    drop(trace);

    run.trace = "large records";
    let (mut trace, records) = large(&mut r);
    run.all(&trace, &mut r, records);

    run.trace = "one byte past the limit";
    trace.push(0);
    run.compared("each function on a trace", |calls| refusals(calls, &trace));
    println!("{} passed, {} failed", run.passed, run.failed);
    (run.failed > 0) as i32
}
