//! The oracle: reads cases on standard input and answers each on standard output, by the Rust of docs/src as published.
//! A case is a letter and its fields, little-endian (compare/FORMAT.md).
//!
//! It is built with overflow checks. A sum that overflows in the Rust is caught and answered by 01's rule: a search whose start
//! and window pass 2^64 - 1 is refusal 5, and a seek whose bounds have crossed scans from lo. How often that happened is said on
//! standard error. Any other panic of the Rust ends the oracle.
//!
//! The plain seek is not the Rust's: plain.rs reads it from 02's text, and holds the Rust's seeks against it.
mod lines;
mod list;
mod plain;

use std::io::{Cursor, Read, Result, Write};
use std::panic::{AssertUnwindSafe, catch_unwind};
use std::sync::Mutex;
use std::sync::atomic::{AtomicU64, Ordering};

use lines::{kind, optional, sum};
use plain::Plain;
use zniff_core::cursor::{SeekState, SeekStep, TraceCursor};
use zniff_core::pti;
use zniff_core::resync::{next_record_at, read_record, record_time_at};
use zniff_core::source::{SliceSource, TraceSource};
use zniff_core::trace::Definitions;
use zniff_core::types::Region;
use zniff_core::zlf::types::ZLF_VERSION;
use zniff_core::zlf::{ApiType, Timestamp, ZlfError, ZlfReader};
use zniff_core::zniffer_parser::{Parser, ParserResult};

const HEADER: u64 = 2048;
const SEEK_SPAN: u64 = 65_536;
/// The rows of the table that the port lends. The Rust's pages grow; 01's refusal 7 stands in where one outgrows it.
const TABLE: usize = 600;

static PANIC: Mutex<String> = Mutex::new(String::new());
static OVERFLOWED: AtomicU64 = AtomicU64::new(0);
static CROSSED: AtomicU64 = AtomicU64::new(0);

/// What a call of the Rust came to: its answer, or the sum that overflowed.
#[derive(Clone, Copy)]
enum Came<T> {
    Answer(T),
    SumOverflowed,
    BoundsCrossed,
}

fn call<T>(f: impl FnOnce() -> T) -> Came<T> {
    match catch_unwind(AssertUnwindSafe(f)) {
        Ok(answer) => Came::Answer(answer),
        Err(_) => match PANIC.lock().unwrap().as_str() {
            "attempt to add with overflow resync.rs" => {
                OVERFLOWED.fetch_add(1, Ordering::Relaxed);
                Came::SumOverflowed
            }
            "attempt to subtract with overflow cursor.rs" => {
                CROSSED.fetch_add(1, Ordering::Relaxed);
                Came::BoundsCrossed
            }
            other => {
                eprintln!("oracle: the Rust panicked: {other}");
                std::process::exit(3);
            }
        },
    }
}

/// A call in which only a search's sum can overflow: its line, or refusal 5.
fn searched(f: impl FnOnce() -> String) -> String {
    match call(f) {
        Came::Answer(line) => line,
        Came::SumOverflowed => "R 5".into(),
        Came::BoundsCrossed => unreachable!(),
    }
}

/// A trace as a cursor reads it, whatever its header is: while it is being opened it shows a good header, so that spans, seeks
/// and pages are compared on every trace. Opening itself is compared on the plain trace.
struct Opened<'a> {
    bytes: SliceSource<'a>,
    opening: bool,
}

impl TraceSource for Opened<'_> {
    fn len(&self) -> u64 {
        self.bytes.len()
    }

    fn read_at(&mut self, offset: u64, buf: &mut [u8]) -> Result<usize> {
        if !self.opening {
            return self.bytes.read_at(offset, buf);
        }
        for (at, b) in (offset..).zip(buf.iter_mut()) {
            *b = *ZLF_VERSION.to_le_bytes().get(at as usize).unwrap_or(&0);
        }
        Ok(buf.len())
    }
}

fn cursor(trace: &[u8]) -> TraceCursor<Opened<'_>> {
    let bytes = SliceSource::new(trace);
    let mut c = TraceCursor::new(Opened { bytes, opening: true }, Definitions).unwrap();
    c.source_mut().opening = false;
    c
}

/// The bytes of the cases, read one field after the other.
struct Cases {
    bytes: Vec<u8>,
    at: usize,
}

impl Cases {
    fn take(&mut self, n: usize) -> &[u8] {
        let s = &self.bytes[self.at..self.at + n];
        self.at += n;
        s
    }
    fn u8(&mut self) -> u8 {
        self.take(1)[0]
    }
    fn u32(&mut self) -> u32 {
        u32::from_le_bytes(self.take(4).try_into().unwrap())
    }
    fn u64(&mut self) -> u64 {
        u64::from_le_bytes(self.take(8).try_into().unwrap())
    }
    fn i64(&mut self) -> i64 {
        self.u64() as i64
    }
    fn bytes(&mut self) -> Vec<u8> {
        let n = self.u32() as usize;
        self.take(n).to_vec()
    }
}

/// The records that a sequential reader gives, a line each, and how it ends. `place` is where its first record is.
fn sequence(out: &mut Vec<u8>, mut r: ZlfReader<impl Read>, mut place: u64) {
    loop {
        let n = r.record_count();
        let end = match r.next_record() {
            Ok(Some(x)) => {
                let len = x.payload.len();
                writeln!(
                    out,
                    "  {place} {} {} {} {} {} {} {len} {}",
                    x.timestamp.raw as u64,
                    x.is_outcome as u8,
                    x.session_id,
                    x.api_type.to_eod(),
                    kind(x.api_type),
                    place + 13,
                    sum(&x.payload)
                )
                .unwrap();
                place += 14 + len as u64;
                continue;
            }
            Ok(None) => "end".into(),
            Err(ZlfError::InvalidPayloadLength(l)) => format!("R 8 {l}"),
            Err(ZlfError::Io(_)) => "R 9".into(),
            Err(ZlfError::Eof) => "R 10".into(),
            Err(e) => panic!("{e}"),
        };
        return writeln!(out, " {end} {place} {n}").unwrap();
    }
}

/// The stepped seek, driven to its end: the answer, the halvings and the steps. Crossed bounds scan from lo (01).
fn driven(c: &mut TraceCursor<Opened<'_>>, target: i64) -> (Option<u64>, u64, u64) {
    let mut s = c.seek_start().unwrap();
    let (mut halvings, mut steps) = (0, 0);
    loop {
        steps += 1;
        match stepped(c, target, s, &mut halvings) {
            SeekStep::More(n) | SeekStep::Scan(n) => s = n,
            SeekStep::Done(x) => return (x, halvings, steps),
        }
    }
}

/// What the two seeks answer to a time, and in how many of each the bounds crossed.
#[derive(Clone, Copy)]
struct Sought {
    target: i64,
    whole: Came<Option<u64>>,
    stepped: (Option<u64>, u64, u64),
    crossed: [u64; 2],
}

impl Sought {
    fn new(trace: &[u8], target: i64) -> Self {
        let before = CROSSED.load(Ordering::Relaxed);
        let stepped = driven(&mut cursor(trace), target);
        let between = CROSSED.load(Ordering::Relaxed);
        let whole = call(|| cursor(trace).seek_time(target).unwrap());
        // whoever asks for them adds them to the count
        let after = CROSSED.swap(before, Ordering::Relaxed);
        Sought { target, whole, stepped, crossed: [after - between, between - before] }
    }
}

/// What is known of the trace that stands. A search through a large payload takes long, so that the cases `k`, `h` and `l` of one time
/// share what the seeks answered.
#[derive(Default)]
struct Known {
    sought: Option<Sought>,
    plain: Plain,
}

impl Known {
    /// The trace is another one now.
    fn changed(&mut self) {
        self.sought = None;
        self.plain.changed();
    }

    fn sought(&mut self, trace: &[u8], target: i64) -> Sought {
        let known = self.sought.filter(|s| s.target == target);
        *self.sought.insert(known.unwrap_or_else(|| Sought::new(trace, target)))
    }
}

fn stepped(c: &mut TraceCursor<Opened<'_>>, target: i64, s: SeekState, halvings: &mut u64) -> SeekStep {
    if let SeekState::Searching { lo, hi } = s {
        if lo > hi {
            CROSSED.fetch_add(1, Ordering::Relaxed);
            return SeekStep::Scan(SeekState::Scanning { at: lo });
        }
        *halvings += (hi - lo > SEEK_SPAN) as u64;
    }
    c.seek_step(target, s).unwrap()
}

/// How many of the bytes a call uses: the Rust does not say it (01 adds it), so a second parser counts them.
fn used(q: &mut Parser, bytes: &[u8]) -> usize {
    let stop = bytes.iter().position(|v| q.parse(*v) != ParserResult::IncompleteFrame);
    stop.map_or(bytes.len(), |n| n + 1)
}

/// Pieces of a stream to one parser, a line for each call. What a call leaves of its piece goes to the next.
fn pieces(mut rest: &[u8]) -> String {
    let (mut p, mut q, mut text) = (Parser::new(), Parser::new(), String::new());
    while !rest.is_empty() {
        let n = u16::from_le_bytes(rest[..2].try_into().unwrap()).into();
        let (mut piece, after) = rest[2..].split_at(n);
        loop {
            let used = used(&mut q, piece);
            text += &format!("\n  {used} {} {}", lines::result(&p.parse_bytes(piece.to_vec())), lines::left(&p));
            piece = &piece[used..];
            if piece.is_empty() {
                break;
            }
        }
        rest = after;
    }
    text
}

/// One page, or pages from `at` on, each from the place that the last one named: a line for each row, then one for the page.
fn pages(trace: &[u8], mut at: u64, count: u64, chain: bool) -> String {
    let mut out = String::new();
    let mut c = cursor(trace);
    loop {
        let w = c.frames_at(at, count as usize).unwrap();
        if w.frames.len() > TABLE {
            return out + "\n R 7";
        }
        for (t, origin) in w.frames.iter().zip(&w.origins) {
            out += &format!("\n  {}", lines::row(t, *origin));
        }
        out += &format!("\n page {} {} {}", w.offset, w.frames.len(), optional(w.next_offset));
        match w.next_offset {
            Some(n) if chain => at = n,
            _ => return out,
        }
    }
}

/// The seam check, which 01 adds, over the Rust's own record test.
fn seam(trace: &[u8], place: u64) -> String {
    if place < HEADER || place > trace.len() as u64 {
        return "R 6".into();
    }
    let mut src = SliceSource::new(trace);
    let (mut at, mut n) = (place, 0);
    while at != src.len() {
        let Some(r) = read_record(&mut src, at).unwrap() else { return format!("B {place} {at} {n}") };
        at = r.next_offset();
        n += 1;
    }
    format!("U {place} {n}")
}

/// A search, with the number of offsets judged, which 01 adds: found - start + 1, or all of them.
fn search(trace: &[u8], from: u64, window: u64) -> String {
    let found = next_record_at(&mut SliceSource::new(trace), from, window).unwrap();
    let start = from.max(HEADER);
    match found {
        Some(f) => format!("{f} {}", f - start + 1),
        None => format!("- {}", (start + window).min(trace.len() as u64).saturating_sub(start)),
    }
}

fn answer(op: u8, i: &mut Cases, trace: &mut Vec<u8>, known: &mut Known, out: &mut Vec<u8>) {
    let line = match op {
        b'K' => {
            let (version, table) = (i.u32(), i.take(256).to_vec());
            let own: Vec<u8> = (0..=255).map(|e| kind(ApiType::from_eod(e))).collect();
            assert!(version == ZLF_VERSION && table == own, "the cases carry another version or another kind table");
            let digits: String = own.iter().map(|k| (b'0' + k) as char).collect();
            format!("{ZLF_VERSION} {digits}")
        }
        b'G' => (0..=255u8).map(|e| if Region::try_from(e).is_ok_and(|r| r as u8 == e) { '1' } else { '0' }).collect(),
        b'm' => {
            let t = Timestamp::from_binary(i.i64());
            format!("{} {}", t.ticks(), t.unix_millis())
        }
        b'c' => {
            let (channel, region) = (i.u8(), i.u8());
            pti::speed_for(channel, region).to_string()
        }
        b'C' => (0..=255u8)
            .map(|c| {
                let speeds: String = (0..=255u8).map(|r| (b'0' + pti::speed_for(c, r)) as char).collect();
                format!("\n  {c} {speeds}")
            })
            .collect(),
        b'b' => lines::body(pti::parse_record(&i.bytes())),
        b'p' => {
            let b = i.bytes();
            let bodies = pti::split_records(&b);
            assert_eq!(
                pti::parse_payload(&b).len(),
                bodies.iter().filter(|x| pti::parse_record(x).is_some()).count()
            );
            let shown = bodies.iter().map(|x| {
                let at = x.as_ptr() as usize - b.as_ptr() as usize;
                format!("\n  {at} {} {}", x.len(), lines::body(pti::parse_record(x)))
            });
            format!("{}{}", bodies.len(), shown.collect::<String>())
        }
        b'z' => {
            let mut p = Parser::new();
            let mut text = String::new();
            for (n, v) in i.bytes().iter().enumerate() {
                let r = p.parse(*v);
                if r != ParserResult::IncompleteFrame {
                    text += &format!("\n  {n} {}", lines::result(&r));
                }
            }
            format!("{}{text}", lines::left(&p))
        }
        b'y' => {
            let b = i.bytes();
            let (mut p, mut q) = (Parser::new(), Parser::new());
            let used = used(&mut q, &b);
            format!("{} {used} {}", lines::result(&p.parse_bytes(b)), lines::left(&p))
        }
        b'w' => pieces(&i.bytes()),
        b'T' => {
            *trace = i.bytes();
            known.changed();
            trace.len().to_string()
        }
        b'P' => {
            let at = i.u32() as usize;
            trace[at] = i.u8();
            known.changed();
            at.to_string()
        }
        b'r' => {
            let at = i.u64();
            lines::record(read_record(&mut SliceSource::new(trace), at).unwrap())
        }
        b'n' => {
            let (from, window) = (i.u64(), i.u64());
            searched(|| search(trace, from, window))
        }
        b't' => {
            let at = i.u64();
            searched(|| {
                let found = record_time_at(&mut SliceSource::new(trace), at).unwrap();
                found.map_or("-".into(), |(place, ms)| format!("{place} {ms}"))
            })
        }
        b'g' => crc16::State::<crc16::AUG_CCITT>::calculate(&i.bytes()).to_string(),
        b'S' => {
            let (from, to) = (i.u64() as usize, i.u64() as usize);
            trace.get(from..to).map_or("-".into(), |part| crc16::State::<crc16::AUG_CCITT>::calculate(part).to_string())
        }
        b'o' => match TraceCursor::new(SliceSource::new(trace), Definitions) {
            Ok(_) => ZLF_VERSION.to_string(),
            Err(_) if trace.len() < HEADER as usize => "R 2".into(),
            Err(_) => format!("R 4 {}", u32::from_le_bytes(trace[..4].try_into().unwrap())),
        },
        b'q' => {
            let mut text = Vec::new();
            let opened = match ZlfReader::new(Cursor::new(&trace[..])) {
                Ok(r) => {
                    writeln!(text, "{ZLF_VERSION}").unwrap();
                    sequence(&mut text, r, HEADER);
                    text.pop();
                    String::from_utf8(text).unwrap()
                }
                Err(ZlfError::Io(_)) => "R 2".into(),
                Err(ZlfError::InvalidHeaderChecksum) => "R 3".into(),
                Err(ZlfError::InvalidZlfVersion(v)) => format!("R 4 {v}"),
                Err(e) => panic!("{e}"),
            };
            opened
        }
        b'Q' => {
            // from any place: the reader is opened on a good header of its own, which the rest of the trace follows
            let place = i.u64();
            let mut head = vec![0; HEADER as usize];
            head[..4].copy_from_slice(&ZLF_VERSION.to_le_bytes());
            let crc = crc16::State::<crc16::AUG_CCITT>::calculate(&head[..2046]);
            head[2046..].copy_from_slice(&crc.to_le_bytes());
            let rest = trace.get(place.min(trace.len() as u64) as usize..).unwrap();
            let mut text = b"\n".to_vec();
            sequence(&mut text, ZlfReader::new(head.chain(rest)).unwrap(), place);
            text.pop();
            String::from_utf8(text).unwrap()
        }
        b's' => {
            let span = cursor(trace).time_span().unwrap();
            span.map_or("-".into(), |(a, b)| format!("{a} {b}"))
        }
        b'k' => {
            let target = i.i64();
            // without a first record the whole seek gives none and no halvings (01); else the stepped one's halvings
            let (first, s) = (cursor(trace).first_record().unwrap(), known.sought(trace, target));
            CROSSED.fetch_add(s.crossed.iter().sum(), Ordering::Relaxed);
            match s.whole {
                Came::Answer(x) if first.is_none() => format!("{} 0", optional(x)),
                Came::Answer(x) => format!("{} {}", optional(x), s.stepped.1),
                Came::BoundsCrossed => format!("{} {}", optional(s.stepped.0), s.stepped.1),
                Came::SumOverflowed => "R 5".into(),
            }
        }
        b'h' => {
            let s = known.sought(trace, i.i64());
            CROSSED.fetch_add(s.crossed[1], Ordering::Relaxed);
            let (x, halvings, steps) = s.stepped;
            format!("{} {halvings} {steps}", optional(x))
        }
        b'l' => {
            let s = known.sought(trace, i.i64());
            known.plain.answer(trace, &s)
        }
        b'j' => {
            let (target, tag, a, b) = (i.i64(), i.u8(), i.u64(), i.u64());
            let s = if tag == 0 { SeekState::Searching { lo: a, hi: b } } else { SeekState::Scanning { at: a } };
            searched(|| lines::step(&stepped(&mut cursor(trace), target, s, &mut 0)))
        }
        b'f' | b'F' => {
            let (at, count) = (i.u64(), i.u64());
            searched(|| pages(trace, at, count, op == b'F'))
        }
        b'u' => seam(trace, i.u64()),
        _ => {
            eprintln!("oracle: no case {op} at {}", i.at - 1);
            std::process::exit(3);
        }
    };
    let between = if line.starts_with('\n') { "" } else { " " };
    writeln!(out, "{}{between}{line}", op as char).unwrap();
}

fn main() {
    assert_eq!(crc16::State::<crc16::AUG_CCITT>::calculate(b"123456789"), 0xe5cc);
    std::panic::set_hook(Box::new(|p| {
        let file = p.location().map_or("", |l| l.file().rsplit('/').next().unwrap());
        let text = p.payload();
        let said = text.downcast_ref::<&str>().map(|s| s.to_string()).or_else(|| text.downcast_ref::<String>().cloned());
        *PANIC.lock().unwrap() = format!("{} {file}", said.unwrap_or_default());
    }));
    let words: Vec<String> = std::env::args().skip(1).collect();
    if words.first().is_some_and(|w| w == "list") {
        return list::list(&words[1..]);
    }
    let mut bytes = Vec::new();
    std::io::stdin().read_to_end(&mut bytes).unwrap();
    if words.first().is_some_and(|w| w == "list-inputs") {
        return list::inputs(&words[1..], bytes);
    }
    let mut i = Cases { bytes, at: 0 };
    let (mut trace, mut known, mut out, mut cases) = (Vec::new(), Known::default(), Vec::new(), 0u64);
    let mut stdout = std::io::stdout().lock();
    while i.at < i.bytes.len() {
        let op = i.u8();
        let answered = catch_unwind(AssertUnwindSafe(|| answer(op, &mut i, &mut trace, &mut known, &mut out)));
        if answered.is_err() {
            eprintln!("oracle: case {cases}, {}: {}", op as char, PANIC.lock().unwrap());
            std::process::exit(3);
        }
        cases += 1;
        if out.len() > 1 << 16 {
            stdout.write_all(&out).unwrap();
            out.clear();
        }
    }
    writeln!(out, "end {cases}").unwrap();
    stdout.write_all(&out).unwrap();
    if let Some(counts) = known.plain.said() {
        eprintln!("oracle: {counts}");
    }
    eprintln!(
        "oracle: {cases} cases; by 01's rule, because the Rust's own sum overflows: {} searches, {} crossed bounds",
        OVERFLOWED.load(Ordering::Relaxed),
        CROSSED.load(Ordering::Relaxed)
    );
}
