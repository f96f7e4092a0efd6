//! The program of bench/run: it links the Rust of docs/src and the library of the port. WHICH INPUT TIMES does the work of an input so many
//! times, by the Rust, by the port, or by both, which must agree, and prints what it came to. `inputs` lists the inputs.
//!
//! Built with `--cfg memory` it counts what either side takes from the heap, over the trace, and prints the peak of it in bytes.
#![no_main]
mod traces;

use std::hint::black_box;

use traces::Kind;
use zlf::sys;
use zlf::zlf::{KINDS, ZLF_VERSION};
use zniff_core::cursor::{SeekStep, TraceCursor};
use zniff_core::resync::{DEFAULT_WINDOW, next_record_at, read_record};
use zniff_core::source::{SliceSource, TraceSource};
use zniff_core::trace::Definitions;
use zniff_core::zlf::ZlfReader;
use zniff_core::zniffer_parser::{Parser, ParserResult};

const MIB: usize = 1 << 20;
const HEADER: u64 = 2048;

/// What an input comes to: a few numbers, in which the two sides must agree.
type Answer = [u64; 3];
/// A side's work on a trace; the number is the page's count, or what else the work takes.
type Work = fn(&[u8], u64) -> Answer;

struct Input {
    name: &'static str,
    trace: fn() -> Vec<u8>,
    number: u64,
    rust: Work,
    port: Work,
}

const fn input(name: &'static str, trace: fn() -> Vec<u8>, number: u64, rust: Work, port: Work) -> Input {
    Input { name, trace, number, rust, port }
}

const INPUTS: &[Input] = &[
    input("search, noise", || traces::repeated("noise", MIB), 0, search::rust, search::port),
    input("search, zeros", || traces::repeated("zeros", MIB), 0, search::rust, search::port),
    input("search, 5B", || traces::repeated("5b", MIB), 0, search::rust, search::port),
    input("search, ticks alone", || traces::repeated("ticks", MIB), 0, search::rust, search::port),
    input("search, length 0", || traces::repeated("length", MIB), 0, search::rust, search::port),
    input("search, unknown end", || traces::repeated("end", MIB), 0, search::rust, search::port),
    input("search, other first byte", || traces::repeated("first", MIB), 0, search::rust, search::port),
    input("search, two of three", || traces::repeated("chain", MIB), 0, search::rust, search::port),
    input("search, five 8, five 0", || traces::repeated("eights", MIB), 0, search::rust, search::port),
    input("search, five 9, five 0", || traces::repeated("nines", MIB), 0, search::rust, search::port),
    input("search, 0 and 8 in turn", || traces::repeated("eight in turn", MIB), 0, search::rust, search::port),
    input("search, 0 and 9 in turn", || traces::repeated("nine in turn", MIB), 0, search::rust, search::port),
    input("search, records", || traces::repeated("records", MIB), 0, search::rust, search::port),
    input("pages of 64, ordinary", || traces::of(Kind::Ordinary, 10 * MIB), 64, pages::rust, pages::port),
    input("pages of 64, PTI", || traces::of(Kind::Pti, 10 * MIB), 64, pages::rust, pages::port),
    input("pages of 64, Zniffer", || traces::of(Kind::Zniffer, 10 * MIB), 64, pages::rust, pages::port),
    input("pages of 64, debug", || traces::of(Kind::Debug, 10 * MIB), 64, pages::rust, pages::port),
    input("pages of 1,000, ordinary", || traces::of(Kind::Ordinary, 10 * MIB), 1000, pages::rust, pages::port),
    input("pages of 1,000, PTI", || traces::of(Kind::Pti, 10 * MIB), 1000, pages::rust, pages::port),
    input("pages of 1,000, Zniffer", || traces::of(Kind::Zniffer, 10 * MIB), 1000, pages::rust, pages::port),
    input("pages of 1,000, debug", || traces::of(Kind::Debug, 10 * MIB), 1000, pages::rust, pages::port),
    input("in sequence, 10 MiB", || traces::of(Kind::Ordinary, 10 * MIB), 0, sequence::rust, sequence::port),
    input("opening, cursor", || traces::of(Kind::Ordinary, MIB), 0, opening::rust, opening::port),
    input("opening, sequence (the sum)", || traces::of(Kind::Ordinary, MIB), 1, opening::rust, opening::port),
    input("opening, by a table of 256", || traces::of(Kind::Ordinary, MIB), 1, table::rust, opening::port),
    input("span, 100 MiB", || traces::of(Kind::Ordinary, 100 * MIB), 0, span::rust, span::port),
    input("nine seeks, 100 MiB", || traces::of(Kind::Ordinary, 100 * MIB), 0, seek::rust, seek::port),
    input("nine stepped seeks, 100 MiB", || traces::of(Kind::Ordinary, 100 * MIB), 1, seek::rust, seek::port),
    input("parser, 1 MiB of frames", || traces::stream(MIB), 0, parser::rust, parser::port),
    input("parser, 1 MiB of commands", || traces::commands(MIB), 0, commands::rust, commands::port),
    input("parser, 1 MiB of noise", || traces::repeated("noise", MIB), 0, parser::rust, parser::port),
    input("seam check, 100 MiB", || traces::of(Kind::Ordinary, 100 * MIB), 0, seam::rust, seam::port),
    input("plain seek, 100 MiB", || traces::of(Kind::Ordinary, 100 * MIB), 0, plain::rust, plain::port),
    input("speeds, all pairs once", Vec::new, 0, speeds::rust, speeds::port),
    input("speeds, the grid 512 times", Vec::new, 512, speeds::rust, speeds::port),
];

fn found(offset: Option<u64>) -> u64 {
    offset.unwrap_or(u64::MAX)
}

fn cursor(trace: &[u8]) -> TraceCursor<SliceSource<'_>> {
    TraceCursor::new(SliceSource::new(black_box(trace)), Definitions).unwrap()
}

mod search {
    use super::*;

    pub fn rust(trace: &[u8], _: u64) -> Answer {
        [found(next_record_at(&mut SliceSource::new(black_box(trace)), 2049, DEFAULT_WINDOW).unwrap()), 0, 0]
    }

    pub fn port(trace: &[u8], _: u64) -> Answer {
        let trace = black_box(trace);
        let a = unsafe { sys::zlf_search(KINDS.as_ptr(), trace.as_ptr(), trace.len(), 2049, DEFAULT_WINDOW as usize) };
        [found(a.is_found.then_some(a.offset as u64)), 0, 0]
    }
}

/// Pages from the header's end on, each from the place that the last one named: pages, rows, and the bytes of their MPDUs.
mod pages {
    use super::*;

    pub fn rust(trace: &[u8], count: u64) -> Answer {
        let mut c = cursor(trace);
        let (mut at, mut a) = (Some(HEADER), [0; 3]);
        while let Some(offset) = at {
            let page = c.frames_at(offset, count as usize).unwrap();
            a[0] += 1;
            a[1] += page.frames.len() as u64;
            a[2] += page.frames.iter().map(|f| f.frame.mpdu.len() as u64).sum::<u64>();
            at = page.next_offset;
        }
        a
    }

    pub fn port(trace: &[u8], count: u64) -> Answer {
        let trace = black_box(trace);
        let mut table = vec![sys::zlf_row::default(); count as usize + 64];
        let (mut at, mut a) = (Some(HEADER as usize), [0; 3]);
        while let Some(offset) = at {
            let page = unsafe {
                sys::zlf_page(KINDS.as_ptr(), trace.as_ptr(), trace.len(), offset, count as usize, table.as_mut_ptr(), table.len())
            };
            assert_eq!(page.refusal, 0);
            a[0] += 1;
            a[1] += page.size as u64;
            a[2] += table[..page.size].iter().map(|r| r.mpdu_len as u64).sum::<u64>();
            at = page.is_more.then_some(page.next);
        }
        a
    }
}

/// All records in sequence: records, and the bytes of their payloads.
mod sequence {
    use super::*;

    pub fn rust(trace: &[u8], _: u64) -> Answer {
        let mut a = [0; 3];
        for record in ZlfReader::new(std::io::Cursor::new(black_box(trace))).unwrap() {
            a[0] += 1;
            a[1] += record.unwrap().payload.len() as u64;
        }
        a
    }

    pub fn port(trace: &[u8], _: u64) -> Answer {
        let trace = black_box(trace);
        let opened = unsafe { sys::zlf_open_sequence(trace.as_ptr(), trace.len(), ZLF_VERSION) };
        let (mut place, mut count, mut a) = (opened.place, opened.count, [0; 3]);
        loop {
            let next = unsafe { sys::zlf_next(KINDS.as_ptr(), trace.as_ptr(), trace.len(), place, count) };
            if !next.is_record {
                return a;
            }
            (place, count) = (next.place, next.count);
            a[0] += 1;
            a[1] += next.size as u64;
        }
    }
}

mod opening {
    use super::*;

    pub fn rust(trace: &[u8], in_sequence: u64) -> Answer {
        if in_sequence == 1 {
            return [ZlfReader::new(std::io::Cursor::new(black_box(trace))).is_ok() as u64, 0, 0];
        }
        [TraceCursor::new(SliceSource::new(black_box(trace)), Definitions).is_ok() as u64, 0, 0]
    }

    pub fn port(trace: &[u8], in_sequence: u64) -> Answer {
        let trace = black_box(trace);
        let (at, n) = (trace.as_ptr(), trace.len());
        let refusal = unsafe {
            if in_sequence == 1 { sys::zlf_open_sequence(at, n, ZLF_VERSION).refusal } else { sys::zlf_open(at, n, ZLF_VERSION).refusal }
        };
        [(refusal == 0) as u64, 0, 0]
    }
}

/// The same opening with the sum by a table of 256 entries, as a crate for CRCs has it; the port's side is the opening's.
mod table {
    use super::*;

    const TABLE: [u16; 256] = table();

    const fn table() -> [u16; 256] {
        let mut table = [0; 256];
        let mut byte = 0;
        while byte < 256 {
            let (mut sum, mut bit) = ((byte as u16) << 8, 0);
            while bit < 8 {
                sum = if sum & 0x8000 != 0 { (sum << 1) ^ 0x1021 } else { sum << 1 };
                bit += 1;
            }
            table[byte] = sum;
            byte += 1;
        }
        table
    }

    pub fn rust(trace: &[u8], _: u64) -> Answer {
        let header = &black_box(trace)[..HEADER as usize];
        let sum = header[..2046].iter().fold(0x1d0f, |sum: u16, byte| (sum << 8) ^ TABLE[((sum >> 8) as u8 ^ byte) as usize]);
        [(header[2046..] == sum.to_le_bytes() && header[..4] == ZLF_VERSION.to_le_bytes()) as u64, 0, 0]
    }
}

mod span {
    use super::*;

    pub fn rust(trace: &[u8], _: u64) -> Answer {
        let (first, last) = cursor(trace).time_span().unwrap().unwrap();
        [first as u64, last as u64, 0]
    }

    pub fn port(trace: &[u8], _: u64) -> Answer {
        let trace = black_box(trace);
        let a = unsafe { sys::zlf_span(KINDS.as_ptr(), trace.as_ptr(), trace.len()) };
        [a.first, a.last, 0]
    }
}

/// Nine seeks, spread over the trace's time; the sum of the offsets.
mod seek {
    use super::*;

    fn targets() -> impl Iterator<Item = i64> {
        (1..10).map(|n| traces::FIRST_MS + n * 1_500_000)
    }

    fn stepped(c: &mut TraceCursor<SliceSource<'_>>, target: i64) -> Option<u64> {
        let mut state = c.seek_start().unwrap();
        loop {
            match c.seek_step(target, state).unwrap() {
                SeekStep::More(next) | SeekStep::Scan(next) => state = next,
                SeekStep::Done(found) => return found,
            }
        }
    }

    pub fn rust(trace: &[u8], steps: u64) -> Answer {
        let mut c = cursor(trace);
        let sum = targets().map(|t| found(if steps == 1 { stepped(&mut c, t) } else { c.seek_time(t).unwrap() })).fold(0u64, u64::wrapping_add);
        [sum, 0, 0]
    }

    fn port_stepped(trace: &[u8], target: i64) -> Option<u64> {
        let mut state = unsafe { sys::zlf_seek_start(KINDS.as_ptr(), trace.as_ptr(), trace.len()) }.state;
        loop {
            let a = unsafe { sys::zlf_seek_step(KINDS.as_ptr(), trace.as_ptr(), trace.len(), target, state) };
            if a.answer == 3 {
                return a.is_found.then_some(a.offset as u64);
            }
            state = a.state;
        }
    }

    fn port_whole(trace: &[u8], target: i64) -> Option<u64> {
        let a = unsafe { sys::zlf_seek(KINDS.as_ptr(), trace.as_ptr(), trace.len(), target) };
        a.is_found.then_some(a.offset as u64)
    }

    pub fn port(trace: &[u8], steps: u64) -> Answer {
        let trace = black_box(trace);
        let sum = targets().map(|t| found(if steps == 1 { port_stepped(trace, t) } else { port_whole(trace, t) })).fold(0u64, u64::wrapping_add);
        [sum, 0, 0]
    }
}

/// Bytes to a parser: frames, their bytes, and bad bytes.
mod parser {
    use super::*;

    pub fn rust(bytes: &[u8], _: u64) -> Answer {
        let (mut p, mut a) = (Parser::new(), [0; 3]);
        for byte in black_box(bytes) {
            match p.parse(*byte) {
                ParserResult::ValidFrame { frame } => {
                    a[0] += 1;
                    a[1] += frame.payload.len() as u64;
                }
                ParserResult::InvalidFrame => a[2] += 1,
                _ => {}
            }
        }
        a
    }

    pub fn port(bytes: &[u8], _: u64) -> Answer {
        let (mut p, mut a, mut rest) = (unsafe { sys::zlf_fresh() }, [0; 3], black_box(bytes));
        while !rest.is_empty() {
            let r = unsafe { sys::zlf_parse(&mut p, rest.as_ptr(), rest.len()) };
            match r.result.which {
                2 => {
                    a[0] += 1;
                    a[1] += r.result.length as u64;
                }
                3 => a[2] += 1,
                _ => {}
            }
            rest = &rest[r.used..];
        }
        a
    }
}

/// The same for commands and their bytes.
mod commands {
    use super::*;

    pub fn rust(bytes: &[u8], _: u64) -> Answer {
        let (mut p, mut a) = (Parser::new(), [0; 3]);
        for byte in black_box(bytes) {
            if let ParserResult::ValidCommand { payload, .. } = p.parse(*byte) {
                a[0] += 1;
                a[1] += payload.len() as u64;
            }
        }
        a
    }

    pub fn port(bytes: &[u8], _: u64) -> Answer {
        let (mut p, mut a, mut rest) = (unsafe { sys::zlf_fresh() }, [0; 3], black_box(bytes));
        while !rest.is_empty() {
            let r = unsafe { sys::zlf_parse(&mut p, rest.as_ptr(), rest.len()) };
            if r.result.which == 1 {
                a[0] += 1;
                a[1] += r.result.length as u64;
            }
            rest = &rest[r.used..];
        }
        a
    }
}

/// The seam check; in the Rust, which has none, its record test from record to record.
mod seam {
    use super::*;

    pub fn rust(trace: &[u8], _: u64) -> Answer {
        let mut source = SliceSource::new(black_box(trace));
        let (mut at, mut records) = (HEADER, 0);
        while at < source.len() {
            let Some(record) = read_record(&mut source, at).unwrap() else { break };
            at = record.next_offset();
            records += 1;
        }
        [records, 0, 0]
    }

    pub fn port(trace: &[u8], _: u64) -> Answer {
        let trace = black_box(trace);
        [unsafe { sys::zlf_seam(KINDS.as_ptr(), trace.as_ptr(), trace.len(), HEADER as usize) }.records as u64, 0, 0]
    }
}

/// The plain seek for a time near the trace's end; in the Rust, which has none, its record test from record to record, with each time
/// compared.
mod plain {
    use super::*;

    const LATE: i64 = traces::FIRST_MS + 16_000_000;

    pub fn rust(trace: &[u8], _: u64) -> Answer {
        let mut source = SliceSource::new(black_box(trace));
        let (mut at, target) = (HEADER, black_box(LATE));
        while let Some(record) = read_record(&mut source, at).unwrap() {
            if record.unix_millis() >= target {
                return [found(Some(at)), 0, 0];
            }
            at = record.next_offset();
        }
        [found(None), 0, 0]
    }

    pub fn port(trace: &[u8], _: u64) -> Answer {
        let (trace, target) = (black_box(trace), black_box(LATE));
        let a = unsafe { sys::zlf_plain_seek(KINDS.as_ptr(), trace.as_ptr(), trace.len(), target) };
        [found(a.is_found.then_some(a.offset as u64)), 0, 0]
    }
}

/// The speeds of all 65,536 pairs of a channel and a region once, or of the grid's 128 pairs so many times: how often each rate but 9.6k is given.
mod speeds {
    use super::*;

    fn given(times: u64, speed_for: impl Fn(u8, u8) -> u8) -> Answer {
        let (turns, channels, regions) = if times == 0 { (1, 255, 255) } else { (times, 3, 31) };
        let mut rates = [0; 4];
        for _ in 0..turns {
            for channel in 0..=channels {
                for region in 0..=regions {
                    rates[speed_for(black_box(channel), black_box(region)) as usize] += 1;
                }
            }
        }
        [rates[1], rates[2], rates[3]]
    }

    pub fn rust(_: &[u8], times: u64) -> Answer {
        given(times, zniff_core::pti::speed_for)
    }

    pub fn port(_: &[u8], times: u64) -> Answer {
        given(times, |channel, region| unsafe { sys::zlf_speed(channel, region) })
    }
}

/// The heap, counted: what is taken now, and the peak of it.
#[cfg(memory)]
mod heap {
    use std::alloc::{GlobalAlloc, Layout, System};
    use std::sync::atomic::{AtomicUsize, Ordering::Relaxed};

    pub static NOW: AtomicUsize = AtomicUsize::new(0);
    pub static PEAK: AtomicUsize = AtomicUsize::new(0);

    struct Counted;

    #[global_allocator]
    static COUNTED: Counted = Counted;

    unsafe impl GlobalAlloc for Counted {
        unsafe fn alloc(&self, layout: Layout) -> *mut u8 {
            let now = NOW.fetch_add(layout.size(), Relaxed) + layout.size();
            PEAK.fetch_max(now, Relaxed);
            unsafe { System.alloc(layout) }
        }

        unsafe fn dealloc(&self, at: *mut u8, layout: Layout) {
            NOW.fetch_sub(layout.size(), Relaxed);
            unsafe { System.dealloc(at, layout) }
        }
    }

    /// The peak while f runs, over what was taken before it.
    pub fn peak<T>(f: impl FnOnce() -> T) -> (T, usize) {
        let before = NOW.load(Relaxed);
        PEAK.store(before, Relaxed);
        let result = f();
        (result, PEAK.load(Relaxed) - before)
    }
}

#[unsafe(no_mangle)]
pub extern "C" fn main(_: i32, _: *const *const std::ffi::c_char) -> i32 {
    let words: Vec<String> = std::env::args().skip(1).collect();
    if words[0] == "inputs" {
        INPUTS.iter().for_each(|i| println!("{}", i.name));
        return 0;
    }
    let i = INPUTS.iter().find(|i| i.name == words[1]).expect("an input");
    let trace = (i.trace)();
    let mut answers = Vec::with_capacity(2);
    for (side, work) in [("rust", i.rust), ("port", i.port)] {
        if words[0] == side || words[0] == "both" {
            #[cfg(memory)]
            println!("{}", heap::peak(|| answers.push(work(&trace, i.number))).1);
            #[cfg(not(memory))]
            for _ in 0..words[2].parse::<u32>().unwrap() {
                answers.clear();
                answers.push(work(&trace, i.number));
            }
            answers.truncate(1);
            if words[0] == "both" {
                println!("{:?}", answers[0]);
            }
        }
    }
    0
}
