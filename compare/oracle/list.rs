//! The output of the program trace-list, by the Rust's own cursor, and inputs for it.
//!
//!     oracle list-inputs DIR COUNT <CASES     writes DIR/1.in and so on: the traces of the cases, which are about pages
//!     oracle list INPUT OUTPUT                prints what trace-list has to print for INPUT; OUTPUT is what it printed
//!
//! The Rust hands out an MPDU's bytes and not their place, so the place is OUTPUT's, if the trace has these bytes there, within the
//! row's record; else it is `?`.
use super::lines::{frame, kind};
use super::{Cases, HEADER, seam};
use std::fs::{read, write};
use zniff_core::cursor::TraceCursor;
use zniff_core::resync::read_record;
use zniff_core::source::SliceSource;
use zniff_core::trace::{Definitions, TraceFrame};
use zniff_core::zlf::ApiType;
use zniff_core::zlf::types::ZLF_VERSION;

/// The kinds and the version before a trace.
const HEAD: usize = 260;
const MOST: usize = 8192;

fn head() -> Vec<u8> {
    let mut out: Vec<u8> = (0..=255).map(|e| kind(ApiType::from_eod(e))).collect();
    out.extend(ZLF_VERSION.to_le_bytes());
    out
}

/// The traces of some cases: each T, as each P leaves it; and every fourth with the records of the ones before it in front of its own,
/// as many as an input holds, so that there are lists of several pages.
pub fn inputs(words: &[String], bytes: Vec<u8>) {
    let (dir, count) = (&words[0], words[1].parse::<usize>().unwrap());
    let mut i = Cases { bytes, at: 0 };
    let (mut trace, mut records, mut made) = (Vec::new(), Vec::new(), 0);
    while i.at < i.bytes.len() && made < count {
        let letter = i.u8();
        match letter {
            b'T' => trace = i.bytes(),
            b'P' => {
                let at = i.u32() as usize;
                trace[at] = i.u8();
            }
            _ => {
                i.take(match letter {
                    b'K' => 260,
                    b'f' | b'F' => 16,
                    b'u' => 8,
                    b'o' => 0,
                    _ => panic!("case {} is none of those about pages", letter as char),
                });
                continue;
            }
        }
        made += 1;
        let own = trace.get(HEADER as usize..).unwrap_or(&[]);
        records = [&records, own].concat();
        if records.len() + HEAD + HEADER as usize > MOST {
            records = own.to_vec();
        }
        let start = &trace[..trace.len().min(HEADER as usize)];
        let rest = if made % 4 == 0 { &records } else { own };
        write(format!("{dir}/{made}.in"), [&head(), start, rest].concat()).unwrap();
    }
}

/// A row's line; `printed` is the line that trace-list printed there.
fn row(trace: &[u8], t: &TraceFrame, (record, position): (u64, usize), printed: &str) -> String {
    let end = read_record(&mut SliceSource::new(trace), record).unwrap().unwrap().next_offset() as usize;
    let mpdu = &t.frame.mpdu;
    let place = printed.split(' ').nth(11).and_then(|x| x.parse::<usize>().ok());
    let right = place.filter(|p| *p >= record as usize + 13 && p + mpdu.len() < end && trace[*p..].starts_with(mpdu));
    let place = right.map_or("?".into(), |p| p.to_string());
    let numbers = frame(&t.frame);
    let (numbers, length) = numbers.rsplit_once(' ').unwrap();
    format!("F {record} {position} {} {} {numbers} {place} {length}\n", t.time_ms, t.delta_ms)
}

fn listed(input: &[u8], output: &str) -> String {
    if input.len() < HEAD || input.len() > MOST {
        return "R 0\n".into();
    }
    assert!(input[..HEAD] == head(), "the input has another version or another kind table");
    let trace = &input[HEAD..];
    let Ok(mut c) = TraceCursor::new(SliceSource::new(trace), Definitions) else {
        return if trace.len() < HEADER as usize { "R 2\n".into() } else { "R 4\n".into() };
    };
    let mut out = format!("V {ZLF_VERSION}\n");
    let mut printed = output.lines().skip(1);
    let mut at = HEADER;
    loop {
        let w = c.frames_at(at, 64).unwrap();
        for (t, origin) in w.frames.iter().zip(&w.origins) {
            out += &row(trace, t, *origin, printed.next().unwrap_or(""));
        }
        match w.next_offset {
            Some(n) => at = n,
            None => break,
        }
    }
    out + &c.first_record().unwrap().map_or("N".into(), |first| seam(trace, first)) + "\n"
}

pub fn list(words: &[String]) {
    let output = String::from_utf8_lossy(&read(&words[1]).unwrap()).into_owned();
    print!("{}", listed(&read(&words[0]).unwrap(), &output));
}
