//! The inputs: traces of records that are made alike each time, and bytes that are repeated.
use zlf::zlf::{KINDS, ZLF_VERSION};

const TICKS: u64 = 640_000_000_000_000_000;
/// Ten milliseconds from record to record.
const APART: u64 = 100_000;
/// The first record's time in milliseconds: 100 MiB of ordinary records span more than 16,000,000 of them.
pub const FIRST_MS: i64 = 1_864_403_200_000;

#[derive(Clone, Copy)]
pub enum Kind {
    Ordinary,
    Pti,
    Zniffer,
    Debug,
}

/// Numbers that are the same each time.
struct Noise(u64);

impl Noise {
    fn byte(&mut self) -> u8 {
        self.0 = self.0.wrapping_mul(6_364_136_223_846_793_005).wrapping_add(1_442_695_040_888_963_407);
        (self.0 >> 56) as u8
    }
}

/// An end byte of a kind.
fn end(kind: u8) -> u8 {
    KINDS.iter().position(|k| *k == kind).unwrap() as u8
}

/// A header with the right version and sum.
pub fn header() -> Vec<u8> {
    let mut h = vec![0; 2046];
    h[..4].copy_from_slice(&ZLF_VERSION.to_le_bytes());
    let mut sum = 0x1D0Fu16;
    for byte in &h {
        sum ^= (*byte as u16) << 8;
        for _ in 0..8 {
            sum = if sum & 0x8000 != 0 { sum << 1 ^ 0x1021 } else { sum << 1 };
        }
    }
    h.extend(sum.to_le_bytes());
    h
}

fn record(out: &mut Vec<u8>, ticks: u64, properties: u8, length: i32, payload: &[u8], end: u8) {
    out.extend(ticks.to_le_bytes());
    out.push(properties);
    out.extend(length.to_le_bytes());
    out.extend(payload);
    out.push(end);
}

/// A PTI payload with one received frame of n radio bytes: the length stands in its byte 7, as a frame's header has it.
fn pti(n: usize, noise: &mut Noise) -> Vec<u8> {
    let mut radio: Vec<u8> = (0..n).map(|_| noise.byte() & 0x3F).collect();
    radio[7] = n as u8;
    let mut p = vec![0x5B, (n + 20) as u8, 0x00, 0x02];
    p.extend([0; 10]);
    p.push(0xF8);
    p.extend(radio);
    p.extend([0xF9, 0xC4, 0x01, 0x01, 0x06, 0x00, 0x5D]);
    p
}

/// A frame of the Zniffer's bytes.
fn zniffer(n: usize, noise: &mut Noise) -> Vec<u8> {
    let mut p = vec![0x21, 0x01, 0x12, 0x34, 0x43, 0x00, 0xC4, 0x21, 0x03, n as u8];
    p.extend((0..n).map(|_| noise.byte()));
    p
}

/// A payload and its kind, of the n-th record.
fn payload(kind: Kind, n: u64, noise: &mut Noise) -> (Vec<u8>, u8) {
    let size = 10 + (noise.byte() % 32) as usize;
    match kind {
        Kind::Ordinary if n % 20 == 19 => payload(Kind::Debug, n, noise),
        Kind::Ordinary if n % 20 == 9 => payload(Kind::Zniffer, n, noise),
        Kind::Ordinary | Kind::Pti => (pti(size, noise), 1),
        Kind::Zniffer => (zniffer(size, noise), 3),
        Kind::Debug => ((0..size).map(|_| noise.byte()).collect(), 4),
    }
}

/// Records of a kind, the same ones each time: those of a round, over and over, each with its own time.
pub struct Records {
    round: Vec<(Vec<u8>, u8)>,
    pub n: u64,
}

impl Records {
    pub fn new(kind: Kind) -> Self {
        let mut noise = Noise(1);
        Records { round: (0..1000).map(|n| payload(kind, n, &mut noise)).collect(), n: 0 }
    }

    /// The next one, at the end of a trace.
    pub fn next(&mut self, trace: &mut Vec<u8>) {
        let (payload, kind) = &self.round[self.n as usize % self.round.len()];
        numbered(trace, self.n, *kind, payload);
        self.n += 1;
    }
}

/// The n-th record of a trace, at its end.
pub fn numbered(trace: &mut Vec<u8>, n: u64, kind: u8, payload: &[u8]) {
    record(trace, TICKS + n * APART, n as u8 & 0x8F, payload.len() as i32, payload, end(kind));
}

/// A trace of records of a kind, of about so many bytes.
pub fn of(kind: Kind, size: usize) -> Vec<u8> {
    let (mut trace, mut records) = (Vec::with_capacity(size + 4096), Records::new(kind));
    trace.extend(header());
    while trace.len() < size {
        records.next(&mut trace);
    }
    trace
}

/// So many bytes of frames, one after the other.
pub fn stream(size: usize) -> Vec<u8> {
    let mut noise = Noise(2);
    let mut bytes = Vec::with_capacity(size + 64);
    while bytes.len() < size {
        let n = 10 + (noise.byte() % 32) as usize;
        bytes.extend(zniffer(n, &mut noise));
    }
    bytes
}

/// So many bytes of commands, one after the other, each with 0 to 31 bytes.
pub fn commands(size: usize) -> Vec<u8> {
    let mut noise = Noise(3);
    let mut bytes = Vec::with_capacity(size + 64);
    while bytes.len() < size {
        let (id, n) = ([1, 2, 3, 4, 5, 14, 19][noise.byte() as usize % 7], noise.byte() % 32);
        bytes.extend([0x23, id, n]);
        bytes.extend((0..n).map(|_| noise.byte()));
    }
    bytes
}

/// A header, and so many bytes of one thing over and over: noise, bytes alone, near misses of each of the later conditions, and records.
pub fn repeated(what: &str, size: usize) -> Vec<u8> {
    let one = |length: i32, first: u8, end: u8| {
        let mut out = Vec::new();
        record(&mut out, TICKS, 0, length, &[first; 10], end);
        out
    };
    let unit = match what {
        "zeros" => vec![0],
        "5b" => vec![0x5B],
        "ticks" => TICKS.to_le_bytes().to_vec(),
        "length" => one(0, 0x5B, end(1)),
        "end" => one(10, 0x5B, end(0)),
        "first" => one(10, 0x00, end(1)),
        "chain" => [one(10, 0x5B, end(1)), one(10, 0x5B, end(1)), one(10, 0x5B, end(0))].concat(),
        "records" => one(10, 0x5B, end(1)),
        // every second offset may begin a record, by the two bytes that a search looks at first; with 9 its ticks pass, and most lengths
        "eights" => vec![8, 8, 8, 8, 8, 0, 0, 0, 0, 0],
        "nines" => vec![9, 9, 9, 9, 9, 0, 0, 0, 0, 0],
        "eight in turn" => vec![0, 8],
        "nine in turn" => vec![0, 9],
        _ => {
            let mut noise = Noise(1);
            (0..size).map(|_| noise.byte()).collect()
        }
    };
    let mut trace = header();
    trace.extend(unit.into_iter().cycle().take(size));
    trace
}
