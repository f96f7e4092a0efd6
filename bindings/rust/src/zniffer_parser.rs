//! The parser of the Zniffer's bytes.
use crate::sys;

/// The regions of the Zniffer's frames.
#[repr(u8)]
#[derive(Debug, Clone, Copy, Default, PartialEq, Eq)]
pub enum Region {
    #[default]
    EU = 0,
    US = 1,
    ANZ = 2,
    HK = 3,
    IN = 5,
    IL = 6,
    RU = 7,
    CN = 8,
    USLR = 9,
    EULR = 11,
    JP = 32,
    KR = 33,
}

impl Region {
    /// The region of a number that the parser has accepted.
    fn of(number: u8) -> Self {
        match number {
            0 => Region::EU,
            1 => Region::US,
            2 => Region::ANZ,
            3 => Region::HK,
            5 => Region::IN,
            6 => Region::IL,
            7 => Region::RU,
            8 => Region::CN,
            9 => Region::USLR,
            11 => Region::EULR,
            32 => Region::JP,
            33 => Region::KR,
            _ => unreachable!("the parser accepts no region {number}"),
        }
    }
}

#[derive(Debug, Clone, PartialEq, Eq)]
pub struct Frame {
    pub region: Region,
    pub channel: u8,
    pub speed: u8,
    pub timestamp: u16,
    pub rssi: u8,
    pub payload: Vec<u8>,
}

#[derive(Debug, Clone, PartialEq, Eq)]
pub enum ParserResult {
    ValidCommand { id: u8, payload: Vec<u8> },
    ValidFrame { frame: Frame },
    IncompleteFrame,
    InvalidFrame,
}

/// The parser: every byte updates it in its place.
#[derive(Debug, Clone)]
pub struct Parser {
    parser: sys::zlf_parser,
}

impl Default for Parser {
    fn default() -> Self {
        Self::new()
    }
}

impl Parser {
    pub fn new() -> Self {
        Parser { parser: unsafe { sys::zlf_fresh() } }
    }

    /// Several bytes, up to the first result that wants no more; and how many were used.
    pub fn parse_some(&mut self, input: &[u8]) -> (ParserResult, usize) {
        let a = unsafe { sys::zlf_parse(&mut self.parser, input.as_ptr(), input.len()) };
        let payload = || a.payload[..a.result.length.into()].to_vec();
        let result = match a.result.which {
            1 => ParserResult::ValidCommand { id: a.result.id, payload: payload() },
            2 => ParserResult::ValidFrame {
                frame: Frame {
                    region: Region::of(a.result.region),
                    channel: a.result.channel,
                    speed: a.result.speed,
                    timestamp: a.result.timestamp,
                    rssi: a.result.rssi,
                    payload: payload(),
                },
            },
            3 => ParserResult::InvalidFrame,
            _ => ParserResult::IncompleteFrame,
        };
        (result, a.used)
    }

    pub fn parse_bytes(&mut self, input: &[u8]) -> ParserResult {
        self.parse_some(input).0
    }

    pub fn parse(&mut self, value: u8) -> ParserResult {
        self.parse_bytes(&[value])
    }

    pub fn timeout(&mut self) {
        *self = Self::new();
    }
}
