//! Reading a window of frames out of a trace, without decoding the rest.
use crate::pti::{Direction, PtiFrame};
use crate::resync::{self, DEFAULT_WINDOW};
use crate::sys::{self, zlf_row, zlf_state};
use crate::zlf::{ZLF_HEADER_SIZE, ZLF_VERSION};
use crate::{Refusal, Trace};

/// How far a stepped seek has narrowed.
#[derive(Debug, Clone, Copy, PartialEq, Eq)]
pub enum SeekState {
    /// Halving the file to bracket the target.
    Searching { lo: u64, hi: u64 },
    /// Walking records to the first one at or after the target.
    Scanning { at: u64 },
}

/// Enough to cover one record plus the resync scan that finds it.
const MAX_RECORD: u64 = 8 * 1024;

impl SeekState {
    /// The byte range the next step will read: where it begins, and its length.
    pub fn probe(&self) -> (u64, u64) {
        match *self {
            SeekState::Searching { lo, hi } => (lo + hi.saturating_sub(lo) / 2, DEFAULT_WINDOW),
            SeekState::Scanning { at } => (at, MAX_RECORD),
        }
    }

    fn of(state: zlf_state) -> Self {
        if state.searching {
            SeekState::Searching { lo: state.lo as u64, hi: state.hi as u64 }
        } else {
            SeekState::Scanning { at: state.at as u64 }
        }
    }

    fn numbers(self) -> zlf_state {
        match self {
            SeekState::Searching { lo, hi } => zlf_state { searching: true, lo: lo as usize, hi: hi as usize, at: 0 },
            SeekState::Scanning { at } => zlf_state { searching: false, lo: 0, hi: 0, at: at as usize },
        }
    }
}

/// The outcome of one [`TraceCursor::seek_step`].
#[derive(Debug, Clone, Copy, PartialEq, Eq)]
pub enum SeekStep {
    /// Keep going from this state.
    More(SeekState),
    /// Bracketing is done; scan from here.
    Scan(SeekState),
    /// The record offset, or None if the time is past the end.
    Done(Option<u64>),
}

/// Whether valid records follow one another to the trace's end.
#[derive(Debug, Clone, Copy, PartialEq, Eq)]
pub enum Seam {
    Unbroken { records: u64 },
    /// The first offset without a valid record, and the number of records before it.
    Broken { place: u64, records: u64 },
}

/// A frame with its time, and the time since the frame before it in its window.
#[derive(Debug, Clone, PartialEq, Eq)]
pub struct TraceFrame {
    /// Its number in the window, from 1.
    pub index: usize,
    pub time_ms: i64,
    pub delta_ms: i64,
    pub frame: PtiFrame,
}

/// Where a window of frames begins, and where the next one continues from.
#[derive(Debug, Clone, PartialEq, Eq)]
pub struct FrameWindow {
    /// Record offset the window started at.
    pub offset: u64,
    /// The decoded frames.
    pub frames: Vec<TraceFrame>,
    /// For each frame, the offset of the record it came from and its position within that record.
    pub origins: Vec<(u64, usize)>,
    /// Record offset to pass back in to continue, or None at end of file.
    pub next_offset: Option<u64>,
}

/// Reads frames from a trace on demand.
#[derive(Debug, Clone)]
pub struct TraceCursor<'a> {
    trace: Trace<'a>,
    table: Vec<zlf_row>,
}

impl<'a> TraceCursor<'a> {
    /// Open a trace. Validates the version and reads nothing else.
    pub fn new(trace: Trace<'a>) -> Result<Self, Refusal> {
        Self::with_version(trace, ZLF_VERSION)
    }

    /// The same, with another version expected.
    pub fn with_version(trace: Trace<'a>, version: u32) -> Result<Self, Refusal> {
        let a = unsafe { sys::zlf_open(trace.bytes.as_ptr(), trace.bytes.len(), version) };
        Refusal::of(a.refusal, a.version.into())?;
        Ok(Self { trace, table: Vec::new() })
    }

    pub fn source(&self) -> Trace<'a> {
        self.trace
    }

    /// Capture time of the first record at or after `offset`.
    pub fn record_time_near(&self, offset: u64) -> Result<Option<i64>, Refusal> {
        Ok(resync::record_time_at(self.trace, offset)?.map(|(_, time)| time))
    }

    /// Offset of the first record in the file.
    pub fn first_record(&self) -> Result<Option<u64>, Refusal> {
        resync::next_record_at(self.trace, ZLF_HEADER_SIZE as u64, DEFAULT_WINDOW)
    }

    /// Capture time of the first and last record, for the overall span.
    pub fn time_span(&self) -> Result<Option<(i64, i64)>, Refusal> {
        let Trace { bytes, kinds } = self.trace;
        let a = unsafe { sys::zlf_span(kinds.as_ptr(), bytes.as_ptr(), bytes.len()) };
        Refusal::of(a.refusal, 0)?;
        Ok(a.is_found.then_some((a.first as i64, a.last as i64)))
    }

    /// Where a stepped seek should start.
    pub fn seek_start(&self) -> Result<SeekState, Refusal> {
        let Trace { bytes, kinds } = self.trace;
        let a = unsafe { sys::zlf_seek_start(kinds.as_ptr(), bytes.as_ptr(), bytes.len()) };
        Refusal::of(a.refusal, 0)?;
        Ok(SeekState::of(a.state))
    }

    /// One step of a time seek, so a caller that must fetch bytes can drive the search and prefetch each probe as it goes.
    pub fn seek_step(&self, time_ms: i64, state: SeekState) -> Result<SeekStep, Refusal> {
        let Trace { bytes, kinds } = self.trace;
        let a = unsafe { sys::zlf_seek_step(kinds.as_ptr(), bytes.as_ptr(), bytes.len(), time_ms, state.numbers()) };
        Refusal::of(a.refusal, 0)?;
        Ok(match a.answer {
            1 => SeekStep::More(SeekState::of(a.state)),
            2 => SeekStep::Scan(SeekState::of(a.state)),
            _ => SeekStep::Done(a.is_found.then_some(a.offset as u64)),
        })
    }

    /// Offset of the first record at or after `time_ms`.
    pub fn seek_time(&self, time_ms: i64) -> Result<Option<u64>, Refusal> {
        let Trace { bytes, kinds } = self.trace;
        let a = unsafe { sys::zlf_seek(kinds.as_ptr(), bytes.as_ptr(), bytes.len(), time_ms) };
        Refusal::of(a.refusal, 0)?;
        Ok(a.is_found.then_some(a.offset as u64))
    }

    /// Offset of the first record at or after `time_ms`, by a plain walk: from the first record, each where the last ended, up to the
    /// first place without a valid one. Slow and easy to trust.
    ///
    /// Where there is a first record, the trace is unbroken from it, times never decrease, and every boundary from it on is the start of
    /// one of those records, it is what [`Self::seek_time`] and the stepped seek find. Near damage they can differ.
    pub fn plain_seek(&self, time_ms: i64) -> Result<Option<u64>, Refusal> {
        let Trace { bytes, kinds } = self.trace;
        let a = unsafe { sys::zlf_plain_seek(kinds.as_ptr(), bytes.as_ptr(), bytes.len(), time_ms) };
        Refusal::of(a.refusal, 0)?;
        Ok(a.is_found.then_some(a.offset as u64))
    }

    /// Whether valid records follow one another from a place to the trace's end.
    pub fn seam(&self, place: u64) -> Result<Seam, Refusal> {
        let Trace { bytes, kinds } = self.trace;
        let a = unsafe { sys::zlf_seam(kinds.as_ptr(), bytes.as_ptr(), bytes.len(), place as usize) };
        Refusal::of(a.refusal, 0)?;
        let (place, records) = (a.place as u64, a.records as u64);
        Ok(if a.is_unbroken { Seam::Unbroken { records } } else { Seam::Broken { place, records } })
    }

    /// A page's rows, in the cursor's table, which grows where a page's last record holds more rows than it has room for.
    fn page(&mut self, offset: u64, count: usize) -> Result<sys::zlf_page_answer, Refusal> {
        let Trace { bytes, kinds } = self.trace;
        let wanted = count.min(4096) + 64;
        if self.table.len() < wanted {
            self.table.resize(wanted, zlf_row::default());
        }
        loop {
            let (table, room) = (self.table.as_mut_ptr(), self.table.len());
            let a = unsafe { sys::zlf_page(kinds.as_ptr(), bytes.as_ptr(), bytes.len(), offset as usize, count, table, room) };
            match Refusal::of(a.refusal, 0) {
                Err(Refusal::TableTooShort) => self.table.resize(2 * room, zlf_row::default()),
                refused => return refused.map(|()| a),
            }
        }
    }

    /// Decode up to `count` frames starting at the record at `offset`; a record is always taken whole.
    pub fn frames_at(&mut self, offset: u64, count: usize) -> Result<FrameWindow, Refusal> {
        let page = self.page(offset, count)?;
        let rows = &self.table[..page.size];
        Ok(FrameWindow {
            offset: page.start as u64,
            frames: rows.iter().enumerate().map(|(i, row)| self.frame(i + 1, row)).collect(),
            origins: rows.iter().map(|row| (row.record as u64, row.position)).collect(),
            next_offset: page.is_more.then_some(page.next as u64),
        })
    }

    fn frame(&self, index: usize, row: &zlf_row) -> TraceFrame {
        TraceFrame {
            index,
            time_ms: row.millis,
            delta_ms: row.gap,
            frame: PtiFrame {
                direction: Direction::of(row.direction),
                region: row.region,
                channel: row.channel,
                speed: row.speed,
                rssi: row.rssi,
                beam_count: (row.beam_count != 0).then_some(row.beam_count),
                mpdu: self.trace.bytes[row.mpdu..row.mpdu + row.mpdu_len].to_vec(),
            },
        }
    }
}
