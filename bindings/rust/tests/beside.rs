//! The same calls on docs/src and on the binding, in one program: beside < CASES, where CASES are what compare/cases writes
//! (compare/FORMAT.md). It says how many calls were equal, or which case was the first that was not (sides/mod.rs).
//! A letter that asks for nothing that the binding has is passed over.
#![no_main]
mod sides;

use std::io::Read;

use sides::Calls;
use zniff_core::cursor as old;
use zniff_core::zlf::types::ZLF_VERSION;

/// The bytes of the cases, one field after the other.
struct Cases {
    bytes: Vec<u8>,
    at: usize,
}

impl Cases {
    fn take(&mut self, n: usize) -> Vec<u8> {
        self.at += n;
        self.bytes[self.at - n..self.at].to_vec()
    }
    fn u8(&mut self) -> u8 {
        self.take(1)[0]
    }
    fn u32(&mut self) -> u32 {
        u32::from_le_bytes(self.take(4).try_into().unwrap())
    }
    fn u64(&mut self) -> u64 {
        u64::from_le_bytes(self.take(8).try_into().unwrap())
    }
    fn bytes(&mut self) -> Vec<u8> {
        let n = self.u32() as usize;
        self.take(n)
    }
}

/// A result; the regions have the same names.
fn result(r: zniff_core::zniffer_parser::ParserResult) -> String {
    use zniff_core::zniffer_parser::ParserResult::*;
    match r {
        ValidCommand { id, payload } => format!("{id} {payload:?}"),
        ValidFrame { frame: f } => format!("{:?} {} {} {} {} {} {:?}", f.region, f.region as u8, f.channel, f.speed, f.timestamp, f.rssi, f.payload),
        IncompleteFrame => "more".into(),
        InvalidFrame => "bad".into(),
    }
}

fn new_result(r: zlf::zniffer_parser::ParserResult) -> String {
    use zlf::zniffer_parser::ParserResult::*;
    match r {
        ValidCommand { id, payload } => format!("{id} {payload:?}"),
        ValidFrame { frame: f } => format!("{:?} {} {} {} {} {} {:?}", f.region, f.region as u8, f.channel, f.speed, f.timestamp, f.rssi, f.payload),
        IncompleteFrame => "more".into(),
        InvalidFrame => "bad".into(),
    }
}

/// Bytes to a fresh parser: one by one, and at once with the number used.
fn parse(calls: &mut Calls, bytes: &[u8], at_once: bool) {
    let (mut rust, mut binding) = (zniff_core::zniffer_parser::Parser::new(), zlf::zniffer_parser::Parser::new());
    let mut used = bytes.len();
    for (n, byte) in bytes.iter().enumerate() {
        let r = result(rust.parse(*byte));
        if !at_once {
            calls.same(r, new_result(binding.parse(*byte)));
        } else if r != "more" {
            used = n + 1;
            break;
        }
    }
    if at_once {
        let mut rust = zniff_core::zniffer_parser::Parser::new();
        let (r, n) = binding.parse_some(bytes);
        calls.same((result(rust.parse_bytes(bytes.to_vec())), used), (new_result(r), n));
    }
}

/// Pieces of a stream to one parser on either side, each call with the number of bytes used; what a call leaves of its piece goes to the next.
fn pieces(calls: &mut Calls, mut rest: &[u8]) {
    let (mut rust, mut binding) = (zniff_core::zniffer_parser::Parser::new(), zlf::zniffer_parser::Parser::new());
    while !rest.is_empty() {
        let n = u16::from_le_bytes(rest[..2].try_into().unwrap()).into();
        let (mut piece, after) = rest[2..].split_at(n);
        loop {
            let (mut of_rust, mut used) = ("more".into(), 0);
            while used < piece.len() && of_rust == "more" {
                of_rust = result(rust.parse(piece[used]));
                used += 1;
            }
            let (r, n) = binding.parse_some(piece);
            calls.same((of_rust, used), (new_result(r), n));
            piece = &piece[used..];
            if piece.is_empty() {
                break;
            }
        }
        rest = after;
    }
}

fn answer(letter: u8, i: &mut Cases, trace: &[u8], calls: &mut Calls) {
    match letter {
        b'K' => {
            let (version, kinds) = (i.u32(), i.take(256));
            calls.same((version, kinds), (zlf::zlf::ZLF_VERSION, zlf::zlf::KINDS.to_vec()));
            for end in 0..=255u8 {
                calls.same(format!("{:?}", zniff_core::zlf::ApiType::from_eod(end)), format!("{:?}", zlf::zlf::ApiType::from_eod(end)));
            }
        }
        b'm' => {
            let raw = i.u64() as i64;
            calls.same(zniff_core::zlf::Timestamp::from_binary(raw).unix_millis(), zlf::zlf::Timestamp::from_binary(raw).unix_millis());
        }
        b'c' => {
            let (channel, region) = (i.u8(), i.u8());
            calls.same(zniff_core::pti::speed_for(channel, region), zlf::pti::speed_for(channel, region));
        }
        b'b' => {
            let body = i.bytes();
            calls.same(zniff_core::pti::parse_record(&body).map(sides::frame), zlf::pti::parse_record(&body));
        }
        b'p' => {
            let payload = i.bytes();
            for body in zniff_core::pti::split_records(&payload) {
                calls.same(zniff_core::pti::parse_record(body).map(sides::frame), zlf::pti::parse_record(body));
            }
        }
        b'z' | b'y' => parse(calls, &i.bytes(), letter == b'y'),
        b'w' => pieces(calls, &i.bytes()),
        b'r' => sides::record(calls, trace, i.u64()),
        b'n' => {
            let (from, window) = (i.u64(), i.u64());
            sides::search(calls, trace, from, window);
        }
        b't' => sides::time(calls, trace, i.u64()),
        b'o' => drop(sides::cursors(calls, trace)),
        b'q' => drop(sides::sequence(calls, trace)),
        b's' => drop(sides::span(calls, trace)),
        b'k' | b'h' => drop(sides::seek(calls, trace, i.u64() as i64)),
        b'l' => sides::plain(calls, trace, i.u64() as i64),
        b'j' => {
            let (target, tag, a, b) = (i.u64() as i64, i.u8(), i.u64(), i.u64());
            let s = if tag == 0 { old::SeekState::Searching { lo: a, hi: b } } else { old::SeekState::Scanning { at: a } };
            let Some((mut rust, binding)) = sides::cursors(calls, trace) else { return };
            let of_rust = sides::searched(|| sides::step(sides::rust_step(&mut rust, target, s)));
            calls.same(of_rust, binding.seek_step(target, sides::state(s)));
        }
        b'f' | b'F' => {
            let (at, count) = (i.u64(), i.u64());
            sides::pages(calls, trace, at, count, if letter == b'F' { u64::MAX } else { 1 });
        }
        b'u' => drop(sides::seam(calls, trace, i.u64())),
        // what the binding does not have: the regions, the header sum, and reading from any place; and all speeds at once
        b'G' => {}
        b'C' => (0..=255u8).for_each(|c| (0..=255u8).for_each(|r| calls.same(zniff_core::pti::speed_for(c, r), zlf::pti::speed_for(c, r)))),
        b'g' => drop(i.bytes()),
        b'S' => drop((i.u64(), i.u64())),
        b'Q' => drop(i.u64()),
        other => panic!("no case {other} at {}", i.at - 1),
    }
}

#[unsafe(no_mangle)]
pub extern "C" fn main(_: i32, _: *const *const std::ffi::c_char) -> i32 {
    assert_eq!(ZLF_VERSION, zlf::zlf::ZLF_VERSION);
    sides::keep_panics();
    let (mut bytes, mut trace) = (Vec::new(), Vec::new());
    std::io::stdin().read_to_end(&mut bytes).unwrap();
    let (mut i, mut calls) = (Cases { bytes, at: 0 }, Calls { equal: 0, crossed: 0, every: Box::new(|_| ()) });
    while i.at < i.bytes.len() {
        let letter = i.u8();
        match letter {
            b'T' => trace = i.bytes(),
            b'P' => {
                let at = i.u32() as usize;
                trace[at] = i.u8();
            }
            _ => {
                if let Err(said) = sides::tried(|| answer(letter, &mut i, &trace, &mut calls)) {
                    println!("beside: case {} before byte {}: {said}", letter as char, i.at);
                    return 1;
                }
            }
        }
    }
    println!("beside: {} calls equal", calls.equal);
    0
}
