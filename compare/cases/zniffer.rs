//! Zniffer bytes.
use crate::Cases;
use crate::random::Random;

/// The bytes at which something changes, and some beside them.
const MARKS: [u8; 32] = [
    0x00, 0x01, 0x02, 0x03, 0x04, 0x05, 0x06, 0x07, 0x09, 0x0A, 0x0B, 0x0C, 0x0D, 0x0E, 0x0F, 0x12, 0x13, 0x14, 0x1F, 0x20, 0x21, 0x22,
    0x23, 0x24, 0x40, 0x43, 0x7F, 0x80, 0xC4, 0xE0, 0xFE, 0xFF,
];

/// Bytes that leave a fresh parser in each of its states, the payload's at several counts.
fn states() -> Vec<Vec<u8>> {
    let frame = [0x21, 0x01, 0x12, 0x34, 0x43, 0x00, 0xC4, 0x21, 0x03];
    let mut out: Vec<Vec<u8>> = (0..=frame.len()).map(|n| frame[..n].to_vec()).collect();
    for (length, so_far) in [(1, 0), (2, 0), (2, 1), (3, 2), (255, 0), (255, 253), (255, 254)] {
        for head in [&frame[..], &[0x23, 0x13]] {
            let mut bytes = head.to_vec();
            bytes.push(length);
            bytes.extend((0..so_far).map(|k| k as u8));
            out.push(bytes);
        }
    }
    out.extend([vec![0x23], vec![0x23, 0x05], vec![0x21, 0x05, 0xFF], vec![0x21, 0x04, 0xFF, 0xFF, 0xFF, 0x21]]);
    out
}

/// A command or a frame, at times with a byte changed.
fn one(r: &mut Random) -> Vec<u8> {
    let n = match r.below(5) {
        0 => 0,
        1 => r.between(1, 2),
        2 => 255,
        _ => r.below(60),
    } as usize;
    let mut out = if r.chance(30) {
        vec![0x23, if r.chance(15) { r.byte() } else { r.of(&[1, 2, 3, 4, 5, 14, 19]) }, n as u8]
    } else {
        let mut f = vec![0x21, if r.chance(10) { r.byte() } else { r.of(&[1, 2, 4, 5]) }];
        f.extend(r.bytes(3));
        f.push(if r.chance(15) { r.byte() } else { r.of(&[0, 1, 2, 3, 5, 6, 7, 8, 9, 11, 32, 33]) });
        f.extend([r.byte(), 0x21, 0x03, n as u8]);
        f
    };
    out.extend(r.bytes(n));
    if r.chance(10) {
        let at = r.below(out.len() as u64) as usize;
        out[at] = r.byte();
    }
    out
}

/// Commands, frames and noise, one after the other.
pub fn stream(r: &mut Random, parts: u64) -> Vec<u8> {
    let mut out = Vec::new();
    for _ in 0..parts {
        match r.below(6) {
            0 => {
                let n = r.below(4) as usize;
                out.extend(r.bytes(n));
            }
            1 => out.extend(vec![r.of(&[0x21, 0x23]); r.below(4) as usize]),
            _ => out.extend(one(r)),
        }
    }
    out
}

pub fn streams(cases: &mut Cases, r: &mut Random, most: usize) {
    cases.add(b'G', &[]);
    for _ in 0..most {
        let parts = r.below(4);
        let s = stream(r, parts);
        cases.block(b'z', &s);
        cases.block(b'y', &s);
        let d = crate::pti::damaged(r, &s);
        cases.block(b'z', &d);
        cases.block(b'y', &d);
    }
    for n in 0..=300.min(most) {
        let s = r.bytes(n);
        cases.block(b'z', &s);
        cases.block(b'y', &s);
        // longer ones over the bytes that matter go further into a frame
        let s: Vec<u8> = (0..n).map(|_| r.of(&MARKS)).collect();
        cases.block(b'z', &s);
        cases.block(b'y', &s);
    }
}

/// Every byte in every state.
pub fn everywhere(cases: &mut Cases, _: &mut Random, most: usize) {
    for mut bytes in states() {
        for b in (0..=255u8).step_by(if most > 100 { 1 } else { 15 }) {
            bytes.push(b);
            cases.block(b'z', &bytes);
            cases.block(b'y', &bytes);
            bytes.pop();
        }
    }
}

/// Every stream of up to 3 bytes over the marks, byte by byte.
pub fn small(cases: &mut Cases, _: &mut Random, most: usize) {
    cases.every(b'z', &MARKS, if most > 100 { 3 } else { 1 });
}

/// The same, at once.
pub fn small_at_once(cases: &mut Cases, _: &mut Random, most: usize) {
    cases.every(b'y', &MARKS, if most > 100 { 3 } else { 1 });
}

/// Payloads around the sizes at which a parser that takes several bytes at once might go wrong.
const LENGTHS: [u8; 8] = [1, 2, 3, 31, 32, 33, 254, 255];

/// These lengths and some others, none of them 0; one of them for a sample.
fn lengths(r: &mut Random, few: bool) -> Vec<u8> {
    if few {
        return vec![2];
    }
    let others = (0..4).map(|_| r.between(4, 253) as u8);
    LENGTHS.into_iter().chain(others).collect()
}

/// A whole frame with a payload of so many bytes, among which are start bytes.
fn frame(r: &mut Random, n: u8) -> Vec<u8> {
    let mut f = vec![0x21, r.of(&[1, 2, 4, 5])];
    f.extend(r.bytes(3));
    f.extend([r.of(&[0, 1, 2, 3, 5, 6, 7, 8, 9, 11, 32, 33]), r.byte(), 0x21, 0x03, n]);
    f.extend(payload(r, n));
    f
}

/// A whole command.
fn command(r: &mut Random, n: u8) -> Vec<u8> {
    let mut c = vec![0x23, r.of(&[1, 2, 3, 4, 5, 14, 19]), n];
    c.extend(payload(r, n));
    c
}

fn payload(r: &mut Random, n: u8) -> Vec<u8> {
    (0..n).map(|_| if r.chance(20) { r.of(&MARKS) } else { r.byte() }).collect()
}

/// Bytes that an idle parser ignores, many of them a bit away from a start byte.
fn ignored(r: &mut Random, n: usize) -> Vec<u8> {
    let near = [0x00, 0x01, 0x03, 0x20, 0x22, 0x24, 0x25, 0x29, 0x2B, 0x31, 0x33, 0x61, 0x63, 0xA1, 0xA3, 0xDC, 0xDE, 0xFF];
    let other = |b: u8| if b == 0x21 || b == 0x23 { 0x22 } else { b };
    (0..n).map(|_| if r.chance(50) { r.of(&near) } else { other(r.byte()) }).collect()
}

/// A case of pieces, each given to the parser by itself.
fn in_pieces(cases: &mut Cases, pieces: &[&[u8]]) {
    let mut bytes = Vec::new();
    for p in pieces {
        bytes.extend((p.len() as u16).to_le_bytes());
        bytes.extend(*p);
    }
    cases.block(b'w', &bytes);
}

/// A second call in every state, at a payload's first byte, its second and its last: over the rest, over a frame, a command and noise.
pub fn begun(cases: &mut Cases, r: &mut Random, most: usize) {
    let few = most < 100;
    for n in lengths(r, few).into_iter().chain([0]) {
        for (head, whole) in [(10, frame(r, n)), (3, command(r, n))] {
            let counts = [0, 1, n.saturating_sub(1).into()].map(|k| head + k);
            let mut places: Vec<usize> = (0..head).chain(counts).filter(|at| *at < whole.len()).collect();
            places.dedup();
            for at in places {
                let (before, rest) = whole.split_at(at);
                let next = [frame(r, 3), command(r, 33)].concat();
                let mut then = vec![
                    rest.to_vec(),
                    rest[..rest.len() - 1].to_vec(),
                    [rest, &next].concat(),
                    next.clone(),
                    command(r, 2),
                    ignored(r, 40),
                    Vec::new(),
                ];
                then.push((0..80).map(|_| r.of(&MARKS)).collect());
                for t in then.into_iter().take(if few { 1 } else { 8 }) {
                    in_pieces(cases, &[before, &t, &next]);
                    let mut one_by_one: Vec<&[u8]> = before.chunks(1).collect();
                    one_by_one.extend([&t[..], &next]);
                    in_pieces(cases, &one_by_one);
                }
            }
        }
    }
}

/// Frames and commands whose input ends at each of their bytes; then the rest, alone and with more after it.
pub fn cut(cases: &mut Cases, r: &mut Random, most: usize) {
    for n in lengths(r, most < 100) {
        for whole in [frame(r, n), command(r, n)] {
            let (before, next) = (ignored(r, 37), [frame(r, 1), command(r, 1)].concat());
            for at in 0..=whole.len() {
                cases.block(b'y', &whole[..at]);
                in_pieces(cases, &[&whole[..at], &[&whole[at..], &next].concat()]);
                in_pieces(cases, &[&[&before, &whole[..at]].concat(), &whole[at..]]);
            }
        }
    }
}

/// Every byte at every place of a frame's header and of a command's, with a payload and a whole frame after it; and two bytes changed.
fn headers(r: &mut Random, few: bool) -> Vec<(usize, Vec<u8>)> {
    let mut out = Vec::new();
    for (head, whole) in [(10, frame(r, 20)), (3, command(r, 20))] {
        let next = frame(r, 5);
        for at in 1..head {
            for b in (0..=255u8).step_by(if few { 51 } else { 1 }) {
                let mut changed = [&whole[..], &next].concat();
                changed[at] = b;
                out.push((at, changed));
            }
        }
        for _ in 0..if few { 4 } else { 400 } {
            let mut changed = [&whole[..], &next].concat();
            let at = r.between(1, head as u64 - 1) as usize;
            changed[at] = r.of(&MARKS);
            changed[r.between(1, head as u64 - 1) as usize] = r.of(&MARKS);
            out.push((at, changed));
        }
    }
    out
}

/// These headers at once, cut before the byte and after it, and ending there.
pub fn changed(cases: &mut Cases, r: &mut Random, most: usize) {
    for (at, s) in headers(r, most < 100) {
        in_pieces(cases, &[&s]);
        in_pieces(cases, &[&s[..at], &s[at..]]);
        in_pieces(cases, &[&s[..=at], &s[at + 1..]]);
        cases.block(b'y', &s[..r.between(at as u64, 11) as usize]);
    }
}

/// No to 70 ignored bytes and some hundreds: before a frame, a command, a start byte, two of them, two before a frame, and nothing; and each
/// byte over and over, before a frame.
fn ignored_before(r: &mut Random, few: bool) -> Vec<Vec<u8>> {
    let many = [127, 128, 129, 255, 256, 257, 300, 511, 512, 513, 777];
    let mut out = Vec::new();
    for n in (0..=70).chain(many).take(if few { 2 } else { 100 }) {
        let (f, c) = (frame(r, 4), command(r, 4));
        for start in [0x21, 0x23] {
            let other = start ^ 2;
            for then in [&[][..], &[start], &[start, start], &[start, other], &[&[start, start], &f[..]].concat(), &[&[start, other], &c[..]].concat()] {
                out.push([&ignored(r, n), then].concat());
            }
        }
        for then in [f, c] {
            out.push([&ignored(r, n)[..], &then, &ignored(r, n), &then].concat());
        }
    }
    for b in (0..=255u8).step_by(if few { 85 } else { 1 }) {
        out.push([&[b; 67], &frame(r, 6)[..]].concat());
    }
    out
}

/// These at once; and cut somewhere, so that a call begins among them.
pub fn idle(cases: &mut Cases, r: &mut Random, most: usize) {
    for s in ignored_before(r, most < 100) {
        let at = r.below(s.len() as u64 + 1) as usize;
        in_pieces(cases, &[&s]);
        in_pieces(cases, &[&s[..at], &s[at..]]);
        cases.block(b'y', &s);
    }
}

/// Frames, commands and noise, one after the other.
fn mixed(r: &mut Random) -> Vec<u8> {
    let mut out = Vec::new();
    for _ in 0..r.between(1, 8) {
        let n = if r.chance(30) { r.of(&LENGTHS) } else { r.below(50) as u8 };
        let k = r.below(70) as usize;
        match r.below(6) {
            0 => out.extend(ignored(r, k)),
            1 => out.extend(one(r)),
            2 => out.extend(command(r, n)),
            _ => out.extend(frame(r, n)),
        }
    }
    out
}

/// Such streams in pieces, cut at random: many small ones, few large ones, and some without a byte.
pub fn pieces(cases: &mut Cases, r: &mut Random, most: usize) {
    for _ in 0..most {
        let s = mixed(r);
        let largest = r.of(&[4, 12, 40, 300]);
        let (mut rest, mut pieces) = (&s[..], Vec::new());
        while !rest.is_empty() {
            let n = r.below(largest).min(rest.len() as u64) as usize;
            pieces.push(&rest[..n]);
            rest = &rest[n..];
        }
        pieces.push(rest);
        in_pieces(cases, &pieces);
    }
}

/// Payloads of Zniffer records: all of the above, and frames that are cut short.
pub fn payloads(r: &mut Random, few: bool) -> Vec<Vec<u8>> {
    let mut out: Vec<Vec<u8>> = headers(r, few).into_iter().map(|(_, s)| s).collect();
    out.extend(ignored_before(r, few));
    for n in lengths(r, few) {
        let whole = [frame(r, n), command(r, 2), frame(r, n)].concat();
        for end in (1..=whole.len()).filter(|e| *e < 60 || e % 16 < 3 || whole.len() - e < 16) {
            out.push(whole[..end].to_vec());
        }
    }
    out.extend((0..if few { 8 } else { 600 }).map(|_| mixed(r)));
    out.retain(|s| !s.is_empty());
    out
}
