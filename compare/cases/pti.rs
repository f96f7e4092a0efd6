//! PTI bodies and payloads.
use crate::Cases;
use crate::random::Random;

/// The bytes at which something changes in a payload.
const MARKS: [u8; 6] = [0x00, 0x01, 0x02, 0x03, 0x5B, 0x5D];

/// The radio part of a body: a beam, or a frame whose byte 7 is around its length.
fn radio(r: &mut Random) -> Vec<u8> {
    if r.chance(25) {
        let n = r.of(&[3, 4]);
        let mut pattern = vec![0x55];
        pattern.extend(r.bytes(n - 1));
        let mut out = Vec::new();
        for _ in 0..r.between(1, 20) {
            match r.below(7) {
                0 => out.push(r.byte()),
                1 => out.push(0x55),
                2 => out.extend(&pattern[..2]),
                _ => out.extend(&pattern),
            }
        }
        out[0] = 0x55;
        return out;
    }
    let n = match r.below(6) {
        0 => 1,
        1 => 2,
        2 => r.between(7, 9),
        _ => r.between(1, 80),
    } as usize;
    let mut out = r.bytes(n);
    if n > 7 && r.chance(60) {
        out[7] = r.of(&[n as u8, n as u8 - 1, n as u8 + 1, 0, 1]);
    }
    out
}

/// A body, most often a good one, at times cut short.
pub fn body(r: &mut Random) -> Vec<u8> {
    let version = if r.chance(5) { r.byte() } else { r.of(&[2, 2, 3]) };
    let sent = r.chance(30);
    let mut out = vec![version];
    out.extend(r.bytes(if version == 3 { 17 } else { 10 }));
    out.push(if r.chance(10) { r.byte() } else if sent { 0xFC } else { 0xF8 });
    out.extend(radio(r));
    out.push(if r.chance(10) { r.byte() } else if sent { 0xFD } else { 0xF9 });
    if !sent {
        out.push(r.byte());
    }
    out.push(if r.chance(50) { r.byte() } else { r.below(18) as u8 });
    out.push(if r.chance(50) { r.byte() } else { r.below(4) as u8 });
    out.push(if r.chance(15) { r.byte() } else { r.of(&[0x06, 0x06, 0x16, 0xF6]) });
    out.push(r.byte());
    if r.chance(10) {
        out.truncate(r.between(0, out.len() as u64) as usize);
    }
    out
}

/// A bracket record around a body.
pub fn bracket(r: &mut Random, body: &[u8]) -> Vec<u8> {
    let mut out = vec![0x5B, (body.len() + 2) as u8, r.byte()];
    out.extend(body);
    out.push(0x5D);
    out
}

/// A payload: bracket records, odd ones among them, at times cut short.
pub fn payload(r: &mut Random) -> Vec<u8> {
    let mut out = Vec::new();
    for _ in 0..r.below(5) {
        match r.below(12) {
            0 => out.extend([0x5B, 0x01, 0x5D]),
            1 => out.extend([0x5B, 0x02, 0x00, 0x5D]),
            2 => out.extend([0x5B, 0x00, 0x5D]),
            3 => out.extend(r.bytes(3)),
            _ => {
                let mut b = body(r);
                b.truncate(253);
                out.extend(bracket(r, &b));
            }
        }
    }
    if r.chance(10) {
        out.truncate(r.between(0, out.len() as u64) as usize);
    }
    out
}

/// A copy with one byte changed, most often to a byte that means something.
pub fn damaged(r: &mut Random, bytes: &[u8]) -> Vec<u8> {
    let mut out = bytes.to_vec();
    if !out.is_empty() {
        let at = r.below(out.len() as u64) as usize;
        out[at] = if r.chance(50) { r.of(&[0x00, 0x5B, 0x5D, 0x55, 0xF8, 0xFC, 0xF9, 0xFD, 0x02, 0x03, 0xFF]) } else { r.byte() };
    }
    out
}

/// Beams through a body: `times` repeats of a pattern after the first, in a received body of version 2, region 1, channel 0.
fn beam(times: usize) -> Vec<u8> {
    let mut out = vec![2; 11];
    out.push(0xF8);
    for _ in 0..=times {
        out.extend([0x55, 0x01, 0x02]);
    }
    out.extend([0xF9, 0xC4, 0x01, 0x00, 0x06, 0x00]);
    out
}

pub fn bodies(cases: &mut Cases, r: &mut Random, most: usize) {
    for _ in 0..most {
        let b = body(r);
        cases.block(b'b', &b);
        cases.block(b'b', &damaged(r, &b));
    }
    for n in 0..=300.min(most * 2) {
        cases.block(b'b', &r.bytes(n));
        let mut b = r.bytes(n);
        if n > 0 {
            b[0] = r.of(&[2, 3]);
        }
        cases.block(b'b', &b);
    }
    // the ceiling of the beam count: 65,534, 65,535 and 65,536 repeats, of which the last two give the same number
    if most > 100 {
        (65_533..=65_536).for_each(|n| cases.block(b'b', &beam(n)));
    }
}

pub fn payloads(cases: &mut Cases, r: &mut Random, most: usize) {
    for _ in 0..most {
        let p = payload(r);
        cases.block(b'p', &p);
        cases.block(b'p', &damaged(r, &p));
    }
    for n in 0..=300.min(most * 2) {
        let mut p = r.bytes(n);
        cases.block(b'p', &p);
        // a first record that is there, with a length around what is left
        if n > 4 {
            p[0] = 0x5B;
            p[1] = r.of(&[n - 2, n - 1, n, 3, 4]) as u8;
            let end = (1 + p[1] as usize).min(n - 1);
            p[end] = 0x5D;
            cases.block(b'p', &p);
        }
    }
}

/// Every payload of up to 6 bytes over the marks.
pub fn small(cases: &mut Cases, _: &mut Random, most: usize) {
    cases.every(b'p', &MARKS, if most > 100 { 6 } else { 2 });
}
