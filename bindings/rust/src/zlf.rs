//! A trace, its kinds, its times, and reading it in sequence.
use crate::{Refusal, sys};

/// The version that the capture tool writes.
pub const ZLF_VERSION: u32 = 104;

/// Size of the ZLF file header, in bytes.
pub const ZLF_HEADER_SIZE: usize = 2048;

/// Payload type of a ZLF record, by the byte that ends it.
#[derive(Debug, Clone, Copy, PartialEq, Eq)]
pub enum ApiType {
    Zniffer,
    Basic,
    Programmer,
    Zip,
    Attachment,
    Text,
    XModem,
    Pti,
    PtiDiagnostic,
    Uic,
    Unknown(u8),
}

impl ApiType {
    /// Decode from the record's trailing EOD byte.
    pub const fn from_eod(eod: u8) -> Self {
        match 0xFEu8.wrapping_sub(eod) {
            0x00 => ApiType::Zniffer,
            0x01 => ApiType::Basic,
            0x02 => ApiType::Programmer,
            0x03 => ApiType::Zip,
            0x06 => ApiType::Attachment,
            0x07 => ApiType::Text,
            0x08 => ApiType::XModem,
            0x09 => ApiType::Pti,
            0x0A => ApiType::PtiDiagnostic,
            0x0B => ApiType::Uic,
            other => ApiType::Unknown(other),
        }
    }

    /// The kind's number in a table of kinds.
    pub const fn kind(self) -> u8 {
        match self {
            ApiType::Unknown(_) => 0,
            ApiType::Pti => 1,
            ApiType::PtiDiagnostic => 2,
            ApiType::Zniffer => 3,
            _ => 4,
        }
    }
}

/// The kind of each end byte.
pub static KINDS: [u8; 256] = {
    let mut kinds = [0; 256];
    let mut eod = 0;
    while eod < 256 {
        kinds[eod] = ApiType::from_eod(eod as u8).kind();
        eod += 1;
    }
    kinds
};

/// The bytes of a trace, header included, and the kinds that its end bytes are read by.
#[derive(Debug, Clone, Copy)]
pub struct Trace<'a> {
    pub bytes: &'a [u8],
    pub kinds: &'a [u8; 256],
}

impl<'a> Trace<'a> {
    /// A trace with the usual kinds.
    pub fn new(bytes: &'a [u8]) -> Self {
        Self { bytes, kinds: &KINDS }
    }

    pub fn len(&self) -> u64 {
        self.bytes.len() as u64
    }

    pub fn is_empty(&self) -> bool {
        self.bytes.is_empty()
    }
}

/// A timestamp as stored in a ZLF record: .NET's `DateTime.ToBinary()`.
#[derive(Debug, Clone, Copy, PartialEq, Eq)]
pub struct Timestamp {
    /// Raw `DateTime.ToBinary()` value, exactly as stored.
    pub raw: i64,
}

impl Timestamp {
    pub fn from_binary(raw: i64) -> Self {
        Self { raw }
    }

    /// Milliseconds since the Unix epoch.
    pub fn unix_millis(self) -> i64 {
        unsafe { sys::zlf_millis(self.raw as u64) }
    }
}

/// One record as stored in a ZLF file.
#[derive(Debug, Clone, Copy, PartialEq, Eq)]
pub struct ZlfRecord<'a> {
    /// Wall-clock time the record was captured.
    pub timestamp: Timestamp,
    /// True when the record was transmitted by the host rather than received.
    pub is_outcome: bool,
    /// Capture session the record belongs to.
    pub session_id: u8,
    /// What the payload contains.
    pub api_type: ApiType,
    /// Raw payload bytes. Not frame-aligned: may hold part of a frame, one frame, or several.
    pub payload: &'a [u8],
}

/// Reads the records of a trace in sequence.
#[derive(Debug, Clone)]
pub struct ZlfReader<'a> {
    trace: Trace<'a>,
    place: usize,
    count: u64,
}

impl<'a> ZlfReader<'a> {
    /// Check the header's sum and then its version.
    pub fn new(trace: Trace<'a>) -> Result<Self, Refusal> {
        Self::with_version(trace, ZLF_VERSION)
    }

    /// The same, with another version expected.
    pub fn with_version(trace: Trace<'a>, version: u32) -> Result<Self, Refusal> {
        let a = unsafe { sys::zlf_open_sequence(trace.bytes.as_ptr(), trace.bytes.len(), version) };
        Refusal::of(a.refusal, a.version.into())?;
        Ok(Self { trace, place: a.place, count: a.count })
    }

    /// Number of records read so far.
    pub fn record_count(&self) -> u64 {
        self.count
    }

    /// Where the next record is to be read.
    pub fn place(&self) -> u64 {
        self.place as u64
    }

    /// Invoke `callback` for every remaining record.
    pub fn read_records<F: FnMut(ZlfRecord<'a>)>(&mut self, mut callback: F) -> Result<(), Refusal> {
        while let Some(record) = self.next_record()? {
            callback(record);
        }
        Ok(())
    }

    /// Read the next record, or `Ok(None)` at end of file.
    pub fn next_record(&mut self) -> Result<Option<ZlfRecord<'a>>, Refusal> {
        let Trace { bytes, kinds } = self.trace;
        let a = unsafe { sys::zlf_next(kinds.as_ptr(), bytes.as_ptr(), bytes.len(), self.place, self.count) };
        Refusal::of(a.refusal, a.negative.into())?;
        (self.place, self.count) = (a.place, a.count);
        Ok(a.is_record.then(|| ZlfRecord {
            timestamp: Timestamp::from_binary(a.ticks as i64),
            is_outcome: a.outgoing,
            session_id: a.session,
            api_type: ApiType::from_eod(a.end_byte),
            payload: &bytes[a.payload..a.payload + a.size],
        }))
    }
}

impl<'a> Iterator for ZlfReader<'a> {
    type Item = Result<ZlfRecord<'a>, Refusal>;

    fn next(&mut self) -> Option<Self::Item> {
        self.next_record().transpose()
    }
}
