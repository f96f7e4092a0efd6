//! Reading ZLF traces by the proved core: safe functions and types over its C interface, with the names of zniff-rs, so that code
//! written for that crate changes little.
//!
//! The differences: a trace is a slice, and not a `TraceSource`; what cannot be read is a [`Refusal`], with its number, which becomes
//! an `io::Error` by `?`; a record's payload is lent and not copied; and [`cursor::TraceCursor::seam`] and
//! [`cursor::TraceCursor::plain_seek`] are new.
//!
//! The library is for x86-64.
#[cfg(not(target_arch = "x86_64"))]
compile_error!("the library of the proved core is for x86-64");

pub mod cursor;
pub mod pti;
pub mod resync;
pub mod sys;
pub mod zlf;
pub mod zniffer_parser;

pub use zlf::Trace;

/// Why there is no answer. The numbers are those of include/zlf.h.
#[derive(Debug, Clone, Copy, PartialEq, Eq)]
pub enum Refusal {
    TraceTooLong,
    TraceTooShort,
    InvalidHeaderChecksum,
    InvalidZlfVersion(u32),
    WindowTooLong,
    PlaceOutside,
    TableTooShort,
    InvalidPayloadLength(i32),
    EofInHead,
    EofInPayload,
}

impl Refusal {
    /// The refusal's number.
    pub fn number(self) -> u32 {
        match self {
            Refusal::TraceTooLong => 1,
            Refusal::TraceTooShort => 2,
            Refusal::InvalidHeaderChecksum => 3,
            Refusal::InvalidZlfVersion(_) => 4,
            Refusal::WindowTooLong => 5,
            Refusal::PlaceOutside => 6,
            Refusal::TableTooShort => 7,
            Refusal::InvalidPayloadLength(_) => 8,
            Refusal::EofInHead => 9,
            Refusal::EofInPayload => 10,
        }
    }

    /// `Ok` of 0, and otherwise the refusal of a number, with the value that it returns.
    fn of(number: u32, value: i64) -> Result<(), Refusal> {
        Err(match number {
            0 => return Ok(()),
            1 => Refusal::TraceTooLong,
            2 => Refusal::TraceTooShort,
            3 => Refusal::InvalidHeaderChecksum,
            4 => Refusal::InvalidZlfVersion(value as u32),
            5 => Refusal::WindowTooLong,
            6 => Refusal::PlaceOutside,
            7 => Refusal::TableTooShort,
            8 => Refusal::InvalidPayloadLength(value as i32),
            9 => Refusal::EofInHead,
            10 => Refusal::EofInPayload,
            _ => unreachable!("the library gives no refusal {number}"),
        })
    }
}

impl std::fmt::Display for Refusal {
    fn fmt(&self, f: &mut std::fmt::Formatter<'_>) -> std::fmt::Result {
        match self {
            Refusal::TraceTooLong => f.write_str("the trace is over 1,073,741,824 bytes"),
            Refusal::TraceTooShort => f.write_str("the trace is under 2,048 bytes"),
            Refusal::InvalidHeaderChecksum => f.write_str("invalid ZLF header checksum"),
            Refusal::InvalidZlfVersion(version) => write!(f, "unsupported ZLF version {version}"),
            Refusal::WindowTooLong => f.write_str("the search's window passes the largest offset"),
            Refusal::PlaceOutside => f.write_str("the place is outside the trace's records"),
            Refusal::TableTooShort => f.write_str("the page's rows outnumber the table"),
            Refusal::InvalidPayloadLength(length) => write!(f, "invalid payload length: {length}"),
            Refusal::EofInHead => f.write_str("the trace ends in a record's properties or length"),
            Refusal::EofInPayload => f.write_str("the trace ends in a record's payload or end byte"),
        }
    }
}

impl std::error::Error for Refusal {}

impl From<Refusal> for std::io::Error {
    fn from(refusal: Refusal) -> Self {
        std::io::Error::new(std::io::ErrorKind::InvalidData, refusal)
    }
}
