//! The same calls on docs/src and on the binding, about a trace. Each answer of the Rust is turned into the binding's type and compared whole;
//! where two differ, the call panics and says so.
//!
//! The Rust is built with overflow checks. Where a sum of its own overflows, 01 says what is answered: refusal 5 for a search's start
//! and window, and for crossed bounds a scan from lo.
use std::fmt::Debug;
use std::io::Cursor;
use std::panic::{AssertUnwindSafe, catch_unwind};
use std::sync::Mutex;

use zlf::cursor as new;
use zlf::zlf::KINDS;
use zlf::{Refusal, sys};
use zniff_core::cursor as old;
use zniff_core::source::SliceSource;
use zniff_core::trace::Definitions;

pub const HEADER: u64 = 2048;

/// What the last panic said, and in which file.
static PANIC: Mutex<(String, String)> = Mutex::new((String::new(), String::new()));

/// Panics are kept and not shown.
pub fn keep_panics() {
    std::panic::set_hook(Box::new(|p| {
        let file = p.location().map_or("", |l| l.file().rsplit('/').next().unwrap());
        let text = p.payload();
        let said = text.downcast_ref::<&str>().map(|s| s.to_string()).or_else(|| text.downcast_ref::<String>().cloned());
        *PANIC.lock().unwrap() = (said.unwrap_or_default(), file.into());
    }));
}

/// What f gives, or what its panic said.
pub fn tried<T>(f: impl FnOnce() -> T) -> Result<T, String> {
    catch_unwind(AssertUnwindSafe(f)).map_err(|_| PANIC.lock().unwrap().0.clone())
}

/// What a call of the Rust came to.
#[derive(Debug, PartialEq)]
enum Came<T> {
    Answer(T),
    SumOverflowed,
    BoundsCrossed,
}

fn call<T>(f: impl FnOnce() -> T) -> Came<T> {
    let said = match tried(f) {
        Ok(answer) => return Came::Answer(answer),
        Err(said) => said,
    };
    let file = PANIC.lock().unwrap().1.clone();
    match (said.as_str(), file.as_str()) {
        ("attempt to add with overflow", "resync.rs") => Came::SumOverflowed,
        ("attempt to subtract with overflow", "cursor.rs") => Came::BoundsCrossed,
        _ => panic!("the Rust panicked: {said} ({file})"),
    }
}

/// A call in which only a search's sum can overflow: its answer, or refusal 5.
pub fn searched<T>(f: impl FnOnce() -> T) -> Result<T, Refusal> {
    match call(f) {
        Came::Answer(answer) => Ok(answer),
        Came::SumOverflowed => Err(Refusal::WindowTooLong),
        Came::BoundsCrossed => panic!("bounds crossed where there are none"),
    }
}

/// How many calls were equal, and in how many whole seeks of the Rust the bounds crossed; `every` is told now and then how many are equal.
pub struct Calls {
    pub equal: u64,
    pub crossed: u64,
    pub every: Box<dyn Fn(u64)>,
}

impl Calls {
    pub fn same<T: Debug + PartialEq>(&mut self, rust: T, binding: T) {
        if rust != binding {
            let [rust, binding] = [rust, binding].map(|x| format!("{x:?}").chars().take(600).collect::<String>());
            panic!("the Rust gives {rust}, the binding {binding}");
        }
        self.equal += 1;
        if self.equal % 65_536 == 0 {
            (self.every)(self.equal);
        }
    }
}

// ---- the Rust's types as the binding's

fn api(x: zniff_core::zlf::ApiType) -> zlf::zlf::ApiType {
    zlf::zlf::ApiType::from_eod(x.to_eod())
}

pub fn frame(f: zniff_core::pti::PtiFrame) -> zlf::pti::PtiFrame {
    let direction = match f.direction {
        zniff_core::pti::Direction::Rx => zlf::pti::Direction::Rx,
        zniff_core::pti::Direction::Tx => zlf::pti::Direction::Tx,
    };
    zlf::pti::PtiFrame { direction, region: f.region, channel: f.channel, speed: f.speed, rssi: f.rssi, beam_count: f.beam_count, mpdu: f.mpdu }
}

fn header(h: zniff_core::resync::RecordHeader) -> (zlf::resync::RecordHeader, u64, u64, i64) {
    let as_new = zlf::resync::RecordHeader {
        offset: h.offset,
        raw_ticks: h.raw_ticks,
        is_outcome: h.is_outcome,
        session_id: h.session_id,
        payload_len: h.payload_len,
        api_type: api(h.api_type),
    };
    (as_new, h.next_offset(), h.payload_offset(), h.unix_millis())
}

pub fn state(s: old::SeekState) -> new::SeekState {
    match s {
        old::SeekState::Searching { lo, hi } => new::SeekState::Searching { lo, hi },
        old::SeekState::Scanning { at } => new::SeekState::Scanning { at },
    }
}

pub fn step(s: old::SeekStep) -> new::SeekStep {
    match s {
        old::SeekStep::More(s) => new::SeekStep::More(state(s)),
        old::SeekStep::Scan(s) => new::SeekStep::Scan(state(s)),
        old::SeekStep::Done(found) => new::SeekStep::Done(found),
    }
}

fn window(w: old::FrameWindow) -> new::FrameWindow {
    let frames = w.frames.into_iter();
    new::FrameWindow {
        offset: w.offset,
        frames: frames.map(|t| new::TraceFrame { index: t.index, time_ms: t.time_ms, delta_ms: t.delta_ms, frame: frame(t.frame) }).collect(),
        origins: w.origins,
        next_offset: w.next_offset,
    }
}

// ---- the calls

/// Both cursors, where the trace opens; that both refuse it where it does not.
pub fn cursors<'a>(calls: &mut Calls, trace: &'a [u8]) -> Option<(old::TraceCursor<SliceSource<'a>>, new::TraceCursor<'a>)> {
    let rust = old::TraceCursor::new(SliceSource::new(trace), Definitions);
    let binding = new::TraceCursor::new(zlf::Trace::new(trace));
    let refusal = if trace.len() < HEADER as usize {
        Refusal::TraceTooShort
    } else {
        Refusal::InvalidZlfVersion(u32::from_le_bytes(trace[..4].try_into().unwrap()))
    };
    calls.same(rust.as_ref().map(|_| ()).map_err(|_| refusal), binding.as_ref().map(|_| ()).map_err(|e| *e));
    Some((rust.ok()?, binding.ok()?))
}

/// All records in sequence, and how the reading ends; and how many there are.
pub fn sequence(calls: &mut Calls, trace: &[u8]) -> u64 {
    use zniff_core::zlf::ZlfError;
    let refusal = |e: ZlfError| match e {
        ZlfError::InvalidHeaderChecksum => Refusal::InvalidHeaderChecksum,
        ZlfError::InvalidZlfVersion(version) => Refusal::InvalidZlfVersion(version),
        ZlfError::InvalidPayloadLength(length) => Refusal::InvalidPayloadLength(length),
        ZlfError::Eof => Refusal::EofInPayload,
        ZlfError::Io(_) if trace.len() < HEADER as usize => Refusal::TraceTooShort,
        ZlfError::Io(_) => Refusal::EofInHead,
    };
    let rust = zniff_core::zlf::ZlfReader::new(Cursor::new(trace));
    let binding = zlf::zlf::ZlfReader::new(zlf::Trace::new(trace));
    let (mut rust, mut binding) = match (rust, binding) {
        (Ok(rust), Ok(binding)) => (rust, binding),
        (rust, binding) => {
            calls.same(rust.map(|_| ()).map_err(refusal), binding.map(|_| ()));
            return 0;
        }
    };
    loop {
        let of_rust = rust.next_record().map_err(refusal).map(|r| r.map(|r| (r.timestamp.raw, r.is_outcome, r.session_id, api(r.api_type), r.payload)));
        let of_binding = binding.next_record().map(|r| r.map(|r| (r.timestamp.raw, r.is_outcome, r.session_id, r.api_type, r.payload.to_vec())));
        let goes_on = matches!(of_rust, Ok(Some(_)));
        calls.same(of_rust, of_binding);
        calls.same(rust.record_count() as u64, binding.record_count());
        if !goes_on {
            return binding.record_count();
        }
    }
}

/// One step of the Rust's seek; crossed bounds scan from lo (01).
pub fn rust_step(c: &mut old::TraceCursor<SliceSource>, target: i64, s: old::SeekState) -> old::SeekStep {
    match s {
        old::SeekState::Searching { lo, hi } if lo > hi => old::SeekStep::Scan(old::SeekState::Scanning { at: lo }),
        s => c.seek_step(target, s).unwrap(),
    }
}

/// The stepped seek, driven to its end, each step compared: what it finds, and its halvings.
fn driven(calls: &mut Calls, rust: &mut old::TraceCursor<SliceSource>, binding: &new::TraceCursor, target: i64) -> (Option<u64>, usize) {
    let mut s = rust.seek_start().unwrap();
    let mut halvings = 0;
    calls.same(Ok(state(s)), binding.seek_start());
    loop {
        let next = rust_step(rust, target, s);
        if let Came::Answer(range) = call(|| s.probe()) {
            calls.same(range, state(s).probe());
        }
        calls.same(Ok(step(next)), binding.seek_step(target, state(s)));
        halvings += matches!((s, next), (old::SeekState::Searching { .. }, old::SeekStep::More(_))) as usize;
        match next {
            old::SeekStep::More(n) | old::SeekStep::Scan(n) => s = n,
            old::SeekStep::Done(found) => return (found, halvings),
        }
    }
}

/// A seek, stepped and whole; and the stepped one's halvings.
pub fn seek(calls: &mut Calls, trace: &[u8], target: i64) -> Option<usize> {
    let (mut rust, binding) = cursors(calls, trace)?;
    let (stepped, halvings) = driven(calls, &mut rust, &binding, target);
    let found = match call(|| rust.seek_time(target).unwrap()) {
        Came::Answer(found) => found,
        _ => {
            calls.crossed += 1;
            stepped
        }
    };
    calls.same(Ok(found), binding.seek_time(target));
    Some(halvings)
}

/// The plain seek, over the Rust's own first record and record test.
pub fn plain(calls: &mut Calls, trace: &[u8], target: i64) {
    let Some((mut rust, binding)) = cursors(calls, trace) else { return };
    let mut at = rust.first_record().unwrap();
    while let Some(place) = at {
        let record = zniff_core::resync::read_record(&mut SliceSource::new(trace), place).unwrap();
        if record.is_some_and(|r| r.unix_millis() >= target) {
            break;
        }
        at = record.map(|r| r.next_offset());
    }
    calls.same(Ok(at), binding.plain_seek(target));
}

/// The span, and the first record; and what the span is.
pub fn span(calls: &mut Calls, trace: &[u8]) -> Option<(i64, i64)> {
    let (mut rust, binding) = cursors(calls, trace)?;
    let span = rust.time_span().unwrap();
    calls.same(Ok(span), binding.time_span());
    calls.same(Ok(rust.first_record().unwrap()), binding.first_record());
    span
}

/// The record at an offset.
pub fn record(calls: &mut Calls, trace: &[u8], at: u64) {
    let rust = zniff_core::resync::read_record(&mut SliceSource::new(trace), at).unwrap().map(header);
    let binding = zlf::resync::read_record(zlf::Trace::new(trace), at);
    calls.same(Ok(rust), binding.map(|r| r.map(|h| (h, h.next_offset(), h.payload_offset(), h.unix_millis()))));
}

/// A search; the Rust does not say how many offsets it judged, which 01 does.
pub fn search(calls: &mut Calls, trace: &[u8], from: u64, window: u64) {
    let rust = searched(|| zniff_core::resync::next_record_at(&mut SliceSource::new(trace), from, window).unwrap());
    calls.same(rust, zlf::resync::next_record_at(zlf::Trace::new(trace), from, window));
    if let Ok(found) = rust {
        let start = from.max(HEADER);
        let judged = found.map_or((start + window).min(trace.len() as u64).saturating_sub(start), |f| f - start + 1);
        let binding = unsafe { sys::zlf_search(KINDS.as_ptr(), trace.as_ptr(), trace.len(), from as usize, window as usize) };
        calls.same(judged, binding.judged as u64);
    }
}

/// The time of the first record from an offset on.
pub fn time(calls: &mut Calls, trace: &[u8], at: u64) {
    let rust = searched(|| zniff_core::resync::record_time_at(&mut SliceSource::new(trace), at).unwrap());
    calls.same(rust, zlf::resync::record_time_at(zlf::Trace::new(trace), at));
}

/// So many pages or fewer, each from the place that the last one named: how many there were, and their rows.
pub fn pages(calls: &mut Calls, trace: &[u8], mut at: u64, count: u64, most: u64) -> (u64, u64) {
    let Some((mut rust, mut binding)) = cursors(calls, trace) else { return (0, 0) };
    let (mut pages, mut rows) = (0, 0);
    loop {
        let of_rust = searched(|| window(rust.frames_at(at, count as usize).unwrap()));
        let (size, next) = of_rust.as_ref().map_or((0, None), |w| (w.frames.len(), w.next_offset));
        calls.same(of_rust, binding.frames_at(at, count as usize));
        (pages, rows) = (pages + 1, rows + size as u64);
        match next {
            Some(n) if pages < most => at = n,
            _ => return (pages, rows),
        }
    }
}

/// The seam check, over the Rust's own record test; and what it says.
pub fn seam(calls: &mut Calls, trace: &[u8], place: u64) -> Option<new::Seam> {
    let (_, binding) = cursors(calls, trace)?;
    let (mut at, mut records) = (place, 0);
    let rust = loop {
        if place < HEADER || place > trace.len() as u64 {
            break Err(Refusal::PlaceOutside);
        }
        if at == trace.len() as u64 {
            break Ok(new::Seam::Unbroken { records });
        }
        let Some(r) = zniff_core::resync::read_record(&mut SliceSource::new(trace), at).unwrap() else {
            break Ok(new::Seam::Broken { place: at, records });
        };
        (at, records) = (r.next_offset(), records + 1);
    };
    calls.same(rust, binding.seam(place));
    rust.ok()
}
