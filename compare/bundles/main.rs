//! bundles CASES ANSWERS: holds the law of 02's request 12 to the answers to a set `bundles` or `bundles-small`.
//!
//! The premises are judged from the payloads' bytes (premises.rs), the law from the answers alone; nothing here splits a payload. Where the
//! premises hold, the joined payload's bodies have to be those of the first followed by those of the second, and the rows of two records
//! those of one. Where one is missing, it is counted how often the law does not hold. The first's premise of being consumed is enough for
//! two laws more, which are held wherever it is met: the frames are those of the two; and the bodies are those that each holds beside the
//! other, which is what it holds alone, but for 5B 02 x 5D. No beam count of a body from a bracket record may be over 78. Status 3 and one
//! line where a law is broken, 2 where answers do not fit the cases; else the counts in one line.
mod premises;
mod read;

use premises::{MISSING, consumed, empty_record, has_one, long, missing};
use read::{Body, Both, Frame, Page, Payload, beams};

/// A bracket record's body has 253 bytes at most, so that its radio part has 236 at most and holds a pattern of 3 bytes 78 times.
const MOST_BEAMS: u64 = 78;

/// 01's record: its payload comes after ticks (8), properties (1) and length (4), and one end byte after that.
const HEADER: usize = 2048;
const BEFORE: usize = 13;

/// Why the judge ends: a law is broken, or the input is none.
enum Ends {
    Broken(String),
    Unreadable(String),
}

impl From<String> for Ends {
    fn from(text: String) -> Self {
        Ends::Unreadable(text)
    }
}

fn broken<T>(text: String) -> Result<T, Ends> {
    Err(Ends::Broken(text))
}

/// What was seen: pairs on the premises, those with frames in both payloads, and with an L of 1; groups of three on them; pairs whose
/// rows were compared, and those rows; pairs off the premises by what is missing, and those for which the law does not hold. Of those whose
/// first is consumed: pairs that are split alike, and pairs that gain a body. For frames: pairs that are held to their law with a payload
/// too short, and those with a frame in either payload; pairs whose first is not consumed and whose frames are others.
#[derive(Default)]
struct Seen {
    pairs: u64,
    frames: u64,
    ones: u64,
    threes: u64,
    traces: u64,
    rows: u64,
    off: [[u64; 2]; MISSING.len()],
    alike: u64,
    gained: u64,
    short: u64,
    short_framed: u64,
    frames_otherwise: u64,
    beams: u64,
}

/// Bodies of a first payload of this length, then those of a second, whose places are moved on by it.
fn followed<'a>(first: &[Body<'a>], length: usize, second: &[Body<'a>]) -> Vec<Body<'a>> {
    let moved = second.iter().map(|b| Body { place: b.place + length, ..b.clone() });
    first.iter().cloned().chain(moved).collect()
}

/// The bodies that a payload holds beside another: those that it holds alone. Only where it is a bracket record with an empty body and
/// nothing else, and the other is not empty, it is that body: alone it holds nothing, which `group` asks of it.
fn beside<'a>(payload: &Payload<'a>, other: &Payload) -> Vec<Body<'a>> {
    if empty_record(payload.bytes) && !other.bytes.is_empty() {
        return vec![Body { place: 3, length: "0", frame: Frame::new() }];
    }
    payload.bodies.clone()
}

/// The frames of these payloads, in order. A body that holds none has no part in them.
fn frames_of<'a, 'b>(payloads: &[&'b Payload<'a>]) -> Vec<&'b Frame<'a>> {
    payloads.iter().flat_map(|p| &p.bodies).map(|b| &b.frame).filter(|f| !f.is_empty()).collect()
}

/// The first of two lists' items that is another one, where there is one: its number, what it should be, and what it is.
fn differs<T: PartialEq>(wanted: &[T], got: &[T], text: fn(&T) -> String) -> Option<String> {
    let n = (0..wanted.len().max(got.len())).find(|&n| wanted.get(n) != got.get(n))?;
    let [wanted, got] = [wanted, got].map(|list| list.get(n).map_or("missing".into(), text));
    Some(format!("{n} is {got} and should be {wanted}"))
}

impl Seen {
    /// The law for frames, which asks only that the first is consumed: what a payload of 4 bytes or fewer gains when it is joined is a body
    /// without a byte, which holds no frame. Where the first is not consumed, it is counted how often the frames are others, with a second
    /// that is long enough to have some.
    fn frames_alike(&mut self, first: &Payload, second: &Payload, joined: &Payload) -> Result<(), Ends> {
        let wanted = frames_of(&[first, second]);
        let other = differs(&wanted, &frames_of(&[joined]), |f| f.join(" "));
        if !consumed(first.bytes) {
            self.frames_otherwise += (long(second.bytes) && other.is_some()) as u64;
            return Ok(());
        }
        if let Some(text) = other {
            return broken(format!("case {}, joined with a first that is consumed: frame {text}", joined.number));
        }
        if !long(first.bytes) || !long(second.bytes) {
            self.short += 1;
            self.short_framed += !wanted.is_empty() as u64;
        }
        Ok(())
    }

    /// The law for two payloads and the joined one: whether they are on 02's premises. What is held wherever the first is consumed is the
    /// law of 02 on them, since both are longer than an empty record there.
    fn pair(&mut self, first: &Payload, second: &Payload, joined: &Payload) -> Result<bool, Ends> {
        self.frames_alike(first, second, joined)?;
        let (missing, consumed_first) = (missing(first.bytes, second.bytes), consumed(first.bytes));
        let how = if missing.is_none() { "on the premises" } else { "with a first that is consumed" };
        let case = format!("case {}, joined {how}", joined.number);
        if consumed_first {
            let wanted = followed(&beside(first, second), first.bytes.len(), &beside(second, first));
            if let Some(text) = differs(&wanted, &joined.bodies, Body::text) {
                return broken(format!("{case}: body {text}"));
            }
        }
        if let Some(m) = missing {
            let alike = joined.bodies == followed(&first.bodies, first.bytes.len(), &second.bodies);
            let [pairs, otherwise] = &mut self.off[m as usize];
            *pairs += 1;
            *otherwise += !alike as u64;
            self.alike += (consumed_first && alike) as u64;
            self.gained += (consumed_first && !alike) as u64;
            return Ok(false);
        }
        if !long(joined.bytes) || consumed(second.bytes) && !consumed(joined.bytes) {
            return broken(format!("{case}: the joined payload is too short, or not consumed"));
        }
        let framed = |p: &Payload| !frames_of(&[p]).is_empty();
        self.pairs += 1;
        self.frames += (framed(first) && framed(second)) as u64;
        self.ones += (has_one(first.bytes) || has_one(second.bytes)) as u64;
        Ok(true)
    }

    /// A group: p, q, r, p and q, q and r, all three. On the premises, both ways of grouping three give what all three joined give. An
    /// empty record alone holds nothing.
    fn group(&mut self, [p, q, r, pq, qr, pqr]: &[Payload; 6]) -> Result<(), Ends> {
        let joins = [(pq, [p.bytes, q.bytes].concat()), (qr, [q.bytes, r.bytes].concat()), (pqr, [p.bytes, q.bytes, r.bytes].concat())];
        if let Some((x, _)) = joins.iter().find(|(x, bytes)| x.bytes != bytes) {
            return Err(Ends::Unreadable(format!("case {} is not joined of its group's payloads", x.number)));
        }
        let two = [self.pair(p, q, pq)?, self.pair(q, r, qr)?];
        let three = [self.pair(pq, r, pqr)?, self.pair(p, qr, pqr)?];
        if two == [true, true] {
            if three != [true, true] {
                return broken(format!("case {}: two and two are on the premises, and three are not", pqr.number));
            }
            self.threes += 1;
        }
        let six = [p, q, r, pq, qr, pqr];
        if let Some(x) = six.iter().find(|x| empty_record(x.bytes) && !x.bodies.is_empty()) {
            return broken(format!("case {}: a bracket record with an empty body, and nothing else, holds a body alone", x.number));
        }
        six.iter().try_for_each(|x| self.beams(x.number, x.bodies.iter().map(|b| &b.frame)))
    }

    /// The ceiling of the beam counts of some frames.
    fn beams<'a>(&mut self, case: u64, frames: impl Iterator<Item = &'a Frame<'a>>) -> Result<(), Ends> {
        for frame in frames.filter(|f| !f.is_empty()) {
            let n = beams(frame)?;
            if n > MOST_BEAMS {
                return broken(format!("case {case}: {n} beams in the body of a bracket record, which has room for {MOST_BEAMS}"));
            }
            self.beams = self.beams.max(n);
        }
        Ok(())
    }

    /// p and q as two records of a trace, and as one. A record of a PTI kind is valid only where its payload opens with 5B (01), which
    /// the law does not ask of q: without that the two are no trace, and there are no rows to compare.
    fn traces(&mut self, p: &Payload, q: &Payload, two: &Page, one: &Page) -> Result<(), Ends> {
        for page in [two, one] {
            self.beams(page.number, page.rows.iter().map(|r| &r.frame))?;
        }
        if missing(p.bytes, q.bytes).is_some() || q.bytes[0] != 0x5B {
            return Ok(());
        }
        let frames = frames_of(&[p, q]);
        for page in [two, one] {
            let rows: Vec<&Frame> = page.rows.iter().map(|r| &r.frame).collect();
            if let Some(text) = differs(&frames, &rows, |f| f.join(" ")) {
                return broken(format!("case {}, a page of payloads on the premises: the frame of row {text}", page.number));
            }
        }
        let time = milliseconds(one.trace);
        let wanted: Vec<_> = (0..frames.len() as u64).map(|n| (HEADER as u64, n, time, "0")).collect();
        let got: Vec<_> = one.rows.iter().map(|r| (r.offset, r.position, r.time, r.gap)).collect();
        if let Some(text) = differs(&wanted, &got, |(offset, position, time, gap)| format!("{offset} {position} {time} {gap}")) {
            return broken(format!("case {}, a page of payloads on the premises: the place and time of row {text}", one.number));
        }
        self.traces += 1;
        self.rows += one.rows.len() as u64;
        Ok(())
    }

    fn said(&self) -> String {
        let off: Vec<String> =
            MISSING.iter().zip(&self.off).map(|(m, [n, otherwise])| format!("{n} {m} ({otherwise} otherwise)")).collect();
        format!(
            "pairs on the premises: {}, all split alike ({} with frames in both, {} with an L of 1, {} as traces with {} rows; {} groups \
             of three either way); off them: {}; off them with a first consumed: {} split alike, {} that gain a body; frames alike with a \
             payload too short: {} ({} with a frame), frames otherwise with a first not consumed: {}; most beams: {}",
            self.pairs,
            self.frames,
            self.ones,
            self.traces,
            self.rows,
            self.threes,
            off.join(", "),
            self.alike,
            self.gained,
            self.short,
            self.short_framed,
            self.frames_otherwise,
            self.beams
        )
    }
}

/// The time of a trace's first record, in milliseconds since 1970.
fn milliseconds(trace: &[u8]) -> u64 {
    let ticks = u64::from_le_bytes(trace[HEADER..HEADER + 8].try_into().unwrap());
    (ticks & 0x3FFF_FFFF_FFFF_FFFF).saturating_sub(621_355_968_000_000_000) / 10_000
}

/// Whether a trace is a header and records of PTI kinds with these payloads, and nothing else.
fn holds(trace: &[u8], payloads: &[&[u8]], kinds: &[u8]) -> bool {
    let mut at = HEADER;
    for p in payloads {
        let (payload, end) = (at + BEFORE, at + BEFORE + p.len());
        if trace.get(payload..end) != Some(p) || !trace.get(end).is_some_and(|e| matches!(kinds[*e as usize], 1 | 2)) {
            return false;
        }
        at = end + 1;
    }
    at == trace.len()
}

/// All groups, one after the other.
fn judge(cases: &[u8], answers: &str) -> Result<String, Ends> {
    let (mut both, mut seen) = (Both::new(cases, answers), Seen::default());
    let kinds = both.kinds()?;
    while both.letter().is_some() {
        let mut six = Vec::new();
        for _ in 0..6 {
            six.push(both.payload()?);
        }
        let six: [Payload; 6] = six.try_into().ok().unwrap();
        seen.group(&six)?;
        if both.letter() == Some(b'T') {
            let ([p, q, _, pq, ..], two, one) = (&six, both.page()?, both.page()?);
            if !holds(two.trace, &[p.bytes, q.bytes], kinds) || !holds(one.trace, &[pq.bytes], kinds) {
                return Err(Ends::Unreadable(format!("cases {} and {} do not page the group's payloads", two.number, one.number)));
            }
            seen.traces(p, q, &two, &one)?;
        }
    }
    both.end()?;
    Ok(seen.said())
}

fn main() {
    let words: Vec<String> = std::env::args().skip(1).collect();
    let [cases, answers] = &words[..] else {
        eprintln!("usage: bundles CASES ANSWERS");
        std::process::exit(2);
    };
    let read = |file: &String| std::fs::read(file).map_err(|e| Ends::Unreadable(format!("{file}: {e}")));
    let judged = read(cases).and_then(|cases| {
        let answers = String::from_utf8(read(answers)?).map_err(|_| "the answers are no text".to_string())?;
        judge(&cases, &answers)
    });
    let (text, status) = match judged {
        Ok(counts) => return println!("{counts}"),
        Err(Ends::Broken(text)) => (text, 3),
        Err(Ends::Unreadable(text)) => (text, 2),
    };
    eprintln!("bundles: {text}");
    std::process::exit(status);
}
