//! The plain seek, and the check that the Rust's two seeks equal it.
//!
//! The Rust has no plain seek. This one is read from the text of 02's request 10, over the Rust's own `first_record` and `read_record`.
//! The request's four premises are judged here as they are worded, without any of the proofs: all records from the first one, and all
//! boundaries. Where they hold, each case is also asked of the whole seek and of the stepped one, and another answer ends the oracle.
use super::{Came, SEEK_SPAN, Sought, cursor, lines::optional};
use zniff_core::resync::{DEFAULT_WINDOW, RecordHeader, next_record_at, read_record};
use zniff_core::source::SliceSource;

/// The plain seek: from the first record on, each where the last ended, up to the first invalid one, the first at or after the time.
fn plain_seek(trace: &[u8], target: i64) -> Option<u64> {
    let mut src = SliceSource::new(trace);
    let mut at = cursor(trace).first_record().unwrap()?;
    while let Some(r) = read_record(&mut src, at).unwrap() {
        if r.unix_millis() >= target {
            return Some(at);
        }
        at = r.next_offset();
    }
    None
}

/// The records from a place on, each where the last ended, up to the first invalid one.
fn records(trace: &[u8], first: u64) -> Vec<RecordHeader> {
    let mut src = SliceSource::new(trace);
    let (mut all, mut at) = (Vec::new(), first);
    while let Some(r) = read_record(&mut src, at).unwrap() {
        at = r.next_offset();
        all.push(r);
    }
    all
}

/// Every boundary from a place on, each found by a search with a window of the whole trace from one past the last.
fn boundaries(trace: &[u8], first: u64) -> Vec<u64> {
    let mut src = SliceSource::new(trace);
    let (mut all, mut from) = (Vec::new(), first);
    while let Some(b) = next_record_at(&mut src, from, trace.len() as u64).unwrap() {
        all.push(b);
        from = b + 1;
    }
    all
}

/// What a trace does not meet: one of the premises alone, in their order, or several.
#[derive(Clone, Copy)]
enum Broken {
    NoFirst,
    Unended,
    GoesBack,
    Elsewhere,
    Several,
}

/// Each of them, as it is said on standard error.
const BROKEN: [&str; 5] = ["no first record", "broken", "going back", "boundaries elsewhere", "several of these"];

/// What is known of the trace that stands: the premise that it does not meet, and the size of its largest record.
#[derive(Clone, Copy)]
struct Judged {
    broken: Option<Broken>,
    largest: u64,
}

/// The premises, one by one: a first record exists; from it on valid records follow one another to the last byte; their milliseconds
/// never decrease; and every boundary from it on is the start of one of them.
fn judge(trace: &[u8]) -> Judged {
    let Some(first) = cursor(trace).first_record().unwrap() else {
        return Judged { broken: Some(Broken::NoFirst), largest: 0 };
    };
    let all = records(trace, first);
    let end = all.last().map_or(first, |r| r.next_offset());
    let unbroken = end == trace.len() as u64;
    let sorted = all.windows(2).all(|two| two[0].unix_millis() <= two[1].unix_millis());
    let own = boundaries(trace, first).iter().all(|b| all.binary_search_by_key(b, |r| r.offset).is_ok());
    let broken = match (unbroken, sorted, own) {
        (true, true, true) => None,
        (false, true, true) => Some(Broken::Unended),
        (true, false, true) => Some(Broken::GoesBack),
        (true, true, false) => Some(Broken::Elsewhere),
        _ => Some(Broken::Several),
    };
    Judged { broken, largest: all.iter().map(|r| r.next_offset() - r.offset).max().unwrap_or(0) }
}

/// The cases of the plain seek so far: what is known of the trace, once one needed it, and the counts.
#[derive(Default)]
pub struct Plain {
    judged: Option<Judged>,
    /// Seeks on the premises; those of them on a trace with a record larger than a seek's span, and than the window; those in which
    /// bounds crossed.
    on: u64,
    long: u64,
    past_window: u64,
    crossed: u64,
    /// Seeks off the premises, by what is not met, and those of them with another answer than the whole seek's.
    off: [[u64; 2]; BROKEN.len()],
}

impl Plain {
    /// The trace is another one now.
    pub fn changed(&mut self) {
        self.judged = None;
    }

    /// A case: the plain seek's answer. On the premises the Rust's seeks have to give the same.
    /// Where bounds crossed, the Rust's whole seek has no answer, and 01's rule is the stepped one's scan from lo.
    pub fn answer(&mut self, trace: &[u8], sought: &Sought) -> String {
        let known = *self.judged.get_or_insert_with(|| judge(trace));
        let (target, stepped, crossings) = (sought.target, sought.stepped.0, sought.crossed.iter().sum::<u64>());
        let plain = plain_seek(trace, target);
        let whole = match sought.whole {
            Came::Answer(x) => x,
            Came::BoundsCrossed => stepped,
            Came::SumOverflowed => unreachable!(),
        };
        if let Some(b) = known.broken {
            let [seeks, others] = &mut self.off[b as usize];
            *seeks += 1;
            *others += (plain != whole) as u64;
            return optional(plain);
        }
        if plain != whole || plain != stepped || crossings == 1 {
            let [plain, whole, stepped] = [plain, whole, stepped].map(optional);
            panic!("on the premises, seek to {target}: plain {plain}, whole {whole}, stepped {stepped}, crossings {crossings}:");
        }
        self.on += 1;
        self.long += (known.largest > SEEK_SPAN) as u64;
        self.past_window += (known.largest > DEFAULT_WINDOW) as u64;
        self.crossed += (crossings > 0) as u64;
        optional(plain)
    }

    /// The counts as a line, where there was a case. compare/run adds up those on the premises.
    pub fn said(&self) -> Option<String> {
        let [off, others] = [0, 1].map(|k| self.off.iter().map(|x| x[k]).sum::<u64>());
        if self.on + off == 0 {
            return None;
        }
        let each: Vec<String> = BROKEN.iter().zip(&self.off).map(|(b, [n, other])| format!("{b} {n} and {other}")).collect();
        let each = if off == 0 { "".into() } else { format!(" ({})", each.join(", ")) };
        Some(format!(
            "plain seeks: {} on the premises, all equal ({} with a record over 65,536, {} over the window, {} with crossed bounds); \
             {off} off them, {others} of these with another answer than the whole seek{each}",
            self.on,
            self.long,
            self.past_window,
            self.crossed
        ))
    }
}
