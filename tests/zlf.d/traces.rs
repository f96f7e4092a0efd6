//! traces WHICH FILE: writes a trace for tests/zlf. WHICH is one of
//!   whole         twelve records of every kind, with one frame, several and none, a beam, and each direction
//!   damaged       the same with 20 zero bytes after the fifth record
//!   empty         a header alone
//!   wrong-sum     a header whose sum is wrong, and one record
//!   foreign       a header of another version with its right sum
//!   short         2,047 bytes
//!   crowded       one record of 700 frames
//!   cut           three records, the last cut in its payload
//!   negative      a record, then one of negative length
//!   kinds         a kind table in which the end byte 01 is Pti, and 02 is above 4
//!   other-kinds   a record with the end byte 01, of version 7
//!   ends          a record for each end byte
//!   wide          the longest lines: the first and the last time that a record may have, and back again
//!   large N       N records of 300 bytes, ten milliseconds apart
//! traces measure FILE COMMAND..: runs COMMAND, and writes to FILE the kilobytes that its largest process held at once, and the milliseconds
//! that it computed; it ends with COMMAND's status.
use std::io::Write;

const START: u64 = 638_501_600_000_000_000;

/// The header: the version, and the sum of the rest with the polynomial 0x1021 from 0x1D0F on.
fn header(version: u32) -> Vec<u8> {
    let mut h = vec![0; 2046];
    h[..4].copy_from_slice(&version.to_le_bytes());
    let mut sum: u16 = 0x1D0F;
    for b in &h {
        sum ^= (*b as u16) << 8;
        for _ in 0..8 {
            sum = if sum & 0x8000 != 0 { sum << 1 ^ 0x1021 } else { sum << 1 };
        }
    }
    h.extend(sum.to_le_bytes());
    h
}

/// A record, so many ticks after the start.
fn record(after: u64, properties: u8, payload: &[u8], end: u8) -> Vec<u8> {
    record_at(START + after, properties, payload, end)
}

fn record_at(ticks: u64, properties: u8, payload: &[u8], end: u8) -> Vec<u8> {
    let mut out = ticks.to_le_bytes().to_vec();
    out.push(properties);
    out.extend((payload.len() as i32).to_le_bytes());
    out.extend(payload);
    out.push(end);
    out
}

/// A PTI frame in its brackets: received with an RSSI, or sent.
fn pti(rssi: Option<u8>, region: u8, channel: u8, mpdu: &[u8]) -> Vec<u8> {
    let mut body = vec![2, 0, 0, 0, 0, 0, 0, 0, 0, 0, 0];
    body.push(if rssi.is_some() { 0xF8 } else { 0xFC });
    body.extend(mpdu);
    body.push(if rssi.is_some() { 0xF9 } else { 0xFD });
    body.extend(rssi);
    body.extend([region, channel, 6, 0]);
    let mut out = vec![0x5B, body.len() as u8 + 2, 0];
    out.extend(body);
    out.push(0x5D);
    out
}

/// A Zniffer frame.
fn zniffer(channel: u8, speed: u8, region: u8, rssi: u8, data: &[u8]) -> Vec<u8> {
    let mut out = vec![0x21, 1, 0x12, 0x34, channel << 5 | speed, region, rssi, 0x21, 3, data.len() as u8];
    out.extend(data);
    out
}

/// The twelve records of a whole trace.
fn records() -> Vec<Vec<u8>> {
    let ms = 10_000;
    let lock = [0xE4, 0x2F, 0x91, 0x07, 0x01, 0x41, 0x01, 0x0B, 0x05, 0x98, 0x40];
    let two = [pti(Some(0xC4), 1, 0, &lock), pti(None, 1, 0, &[0xE4, 0x2F, 0x91, 0x07, 0x05, 0x03, 0x01, 0x0A, 0x01, 0x55])].concat();
    let beam = [0x55, 0x05, 0x01].repeat(4);
    vec![
        record(0, 0x00, &pti(Some(0xC4), 1, 0, &lock), 0xF5),
        record(12 * ms + 3_456, 0x80, &pti(None, 1, 1, &lock[..6]), 0xF5),
        record(15 * ms, 0x05, &two, 0xF5),
        record(15 * ms, 0x00, b"a remark of the capture tool", 0xF7),
        record(1_015 * ms, 0x00, &pti(Some(0xB0), 1, 2, &beam), 0xF5),
        record(1_016 * ms, 0x81, &zniffer(2, 3, 0, 0xC4, &[0xAA, 0xBB]), 0xFE),
        record(1_017 * ms, 0x01, &zniffer(0, 1, 9, 0x40, &[0x01, 0x02, 0x03, 0x04]), 0xFE),
        record(1_017 * ms, 0x01, &zniffer(1, 2, 32, 0x7F, &[0xFF]), 0xFE),
        record(61_017 * ms, 0x00, &pti(Some(0x80), 12, 3, &[0x11; 24]), 0xF4),
        record(60_000 * ms, 0x00, &pti(Some(0xFF), 15, 3, &lock), 0xF5),
        record(3_661_017 * ms, 0x7F, &pti(Some(0x01), 9, 2, &[0x00; 3]), 0xF5),
        record(90_061_017 * ms, 0x00, &pti(None, 7, 1, &[0x31; 60]), 0xF5),
    ]
}

fn trace(which: &str) -> Vec<u8> {
    let mut out = header(104);
    match which {
        "whole" => out.extend(records().concat()),
        "damaged" => {
            out.extend(records()[..5].concat());
            out.extend([0; 20]);
            out.extend(records()[5..].concat());
        }
        "empty" => {}
        "wrong-sum" => {
            out[2046] ^= 1;
            out.extend(&records()[0]);
        }
        "foreign" => out = header(105),
        "short" => out.truncate(2047),
        "crowded" => out.extend(record(0, 0, &pti(Some(0xC4), 1, 0, &[0xAA]).repeat(700), 0xF5)),
        "cut" => {
            out.extend(records()[..3].concat());
            out.truncate(out.len() - 10);
        }
        "negative" => {
            out.extend(&records()[0]);
            let mut bad = record(0, 0, &[0x5B], 0xF5);
            bad[9..13].copy_from_slice(&(-2i32).to_le_bytes());
            out.extend(bad);
        }
        "kinds" => {
            out = vec![0; 256];
            out[1] = 1;
            out[2] = 5;
        }
        "other-kinds" => {
            out = header(7);
            out.extend(record(0, 0, &pti(Some(0xC4), 1, 1, &[0xAA, 0xBB]), 0x01));
        }
        "wide" => {
            for ticks in [630_822_816_000_000_000, 662_479_488_000_000_000, 630_822_816_000_000_000] {
                out.extend(record_at(ticks, 0, &pti(Some(0x80), 14, 15, &[0x55; 200]), 0xF5));
            }
        }
        "ends" => (0..=255).for_each(|end| out.extend(record(0, 0, b"[]", end))),
        _ => {
            eprintln!("traces: there is no trace {which}");
            std::process::exit(2);
        }
    }
    out
}

extern "C" {
    fn getrusage(who: i32, usage: *mut [i64; 18]) -> i32;
}

/// Runs a command and measures it, with all that it waits for.
fn measure(file: &str, command: &[String]) -> std::io::Result<()> {
    let status = std::process::Command::new(&command[0]).args(&command[1..]).status()?;
    let mut usage = [0; 18];
    unsafe { getrusage(-1, &mut usage) };
    let [user, user_micros, system, system_micros, kilobytes] = usage[..5] else { unreachable!() };
    std::fs::write(file, format!("{kilobytes} {}\n", (user + system) * 1000 + (user_micros + system_micros) / 1000))?;
    std::process::exit(status.code().unwrap_or(2));
}

fn main() -> std::io::Result<()> {
    let words: Vec<String> = std::env::args().skip(1).collect();
    if words[0] == "measure" {
        return measure(&words[1], &words[2..]);
    }
    let mut file = std::io::BufWriter::new(std::fs::File::create(&words[1])?);
    if words[0] != "large" {
        return file.write_all(&trace(&words[0]));
    }
    let mut payload = pti(Some(0xC4), 1, 0, &[0x55; 200]);
    payload.extend(pti(None, 1, 1, &[0xAA; 286 - 200 - 19 - 2 * 19 + 1]));
    payload.resize(286, 0);
    file.write_all(&header(104))?;
    for n in 0..words[2].parse().unwrap() {
        file.write_all(&record(n * 100_000, 0, &payload, 0xF5))?;
    }
    file.flush()
}
