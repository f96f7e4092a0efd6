//! Records and record boundaries at an arbitrary offset of a trace.
use crate::zlf::{ApiType, Timestamp};
use crate::{Refusal, Trace, sys};

/// How far to search for a boundary before giving up.
pub const DEFAULT_WINDOW: u64 = 1 << 20;

/// Bytes of a record that precede its payload.
const RECORD_HEADER: u64 = 13;

/// A record header read from the trace.
#[derive(Debug, Clone, Copy, PartialEq, Eq)]
pub struct RecordHeader {
    /// Offset the record starts at.
    pub offset: u64,
    /// Raw `DateTime.ToBinary()` value.
    pub raw_ticks: i64,
    pub is_outcome: bool,
    pub session_id: u8,
    pub payload_len: u32,
    pub api_type: ApiType,
}

impl RecordHeader {
    /// Offset of the record that follows this one.
    pub fn next_offset(&self) -> u64 {
        self.payload_offset() + u64::from(self.payload_len) + 1
    }

    /// Offset of the payload's first byte.
    pub fn payload_offset(&self) -> u64 {
        self.offset + RECORD_HEADER
    }

    /// Capture time in milliseconds since the Unix epoch.
    pub fn unix_millis(&self) -> i64 {
        Timestamp::from_binary(self.raw_ticks).unix_millis()
    }
}

/// Read and validate a single record header at `offset`.
pub fn read_record(trace: Trace, offset: u64) -> Result<Option<RecordHeader>, Refusal> {
    let Trace { bytes, kinds } = trace;
    let a = unsafe { sys::zlf_record(kinds.as_ptr(), bytes.as_ptr(), bytes.len(), offset as usize) };
    Refusal::of(a.refusal, 0)?;
    Ok(a.is_valid.then(|| RecordHeader {
        offset: a.offset as u64,
        raw_ticks: a.ticks as i64,
        is_outcome: a.outgoing,
        session_id: a.session,
        payload_len: a.size as u32,
        api_type: ApiType::from_eod(a.end_byte),
    }))
}

/// Offset of the first record boundary at or after `from`, of the offsets of a window.
pub fn next_record_at(trace: Trace, from: u64, window: u64) -> Result<Option<u64>, Refusal> {
    let Trace { bytes, kinds } = trace;
    let a = unsafe { sys::zlf_search(kinds.as_ptr(), bytes.as_ptr(), bytes.len(), from as usize, window as usize) };
    Refusal::of(a.refusal, 0)?;
    Ok(a.is_found.then_some(a.offset as u64))
}

/// Capture time of the first record at or after `offset`, with its position.
pub fn record_time_at(trace: Trace, offset: u64) -> Result<Option<(u64, i64)>, Refusal> {
    let Some(at) = next_record_at(trace, offset, DEFAULT_WINDOW)? else {
        return Ok(None);
    };
    Ok(read_record(trace, at)?.map(|record| (at, record.unix_millis())))
}
