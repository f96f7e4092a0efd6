//! How the answers of the Rust are written as lines. The port's side, crates/replay, writes the same ones.
use zniff_core::cursor::{SeekState, SeekStep};
use zniff_core::pti::{Direction, PtiFrame};
use zniff_core::resync::RecordHeader;
use zniff_core::trace::TraceFrame;
use zniff_core::types::Region;
use zniff_core::zlf::ApiType;
use zniff_core::zniffer_parser::{Parser, ParserResult};

/// 01's number for an end byte's kind.
pub fn kind(a: ApiType) -> u8 {
    match a {
        ApiType::Unknown(_) => 0,
        ApiType::Pti => 1,
        ApiType::PtiDiagnostic => 2,
        ApiType::Zniffer => 3,
        _ => 4,
    }
}

/// A sum that depends on the order of the bytes, so that bytes are compared and not only counted.
pub fn sum(b: &[u8]) -> u64 {
    b.iter().fold(b.len() as u64, |s, &x| (s * 31 + x as u64) % 4_294_967_291)
}

pub fn optional(x: Option<u64>) -> String {
    x.map_or("-".into(), |v| v.to_string())
}

pub fn record(r: Option<RecordHeader>) -> String {
    let Some(r) = r else { return "-".into() };
    format!(
        "{} {} {} {} {} {} {} {}",
        r.offset,
        r.raw_ticks as u64,
        r.unix_millis(),
        r.is_outcome as u8,
        r.session_id,
        r.payload_len,
        kind(r.api_type),
        r.next_offset()
    )
}

pub fn frame(f: &PtiFrame) -> String {
    format!(
        "{} {} {} {} {} {} {}",
        if f.direction == Direction::Rx { 'R' } else { 'T' },
        f.region,
        f.channel,
        f.speed,
        f.rssi,
        f.beam_count.unwrap_or(0),
        f.mpdu.len()
    )
}

pub fn body(f: Option<PtiFrame>) -> String {
    f.map_or("-".into(), |f| format!("{} {}", frame(&f), sum(&f.mpdu)))
}

pub fn row(t: &TraceFrame, origin: (u64, usize)) -> String {
    let (record, position) = origin;
    format!("{record} {position} {} {} {} {}", t.time_ms, t.delta_ms, frame(&t.frame), sum(&t.frame.mpdu))
}

pub fn state(s: SeekState) -> String {
    match s {
        SeekState::Searching { lo, hi } => format!("S {lo} {hi}"),
        SeekState::Scanning { at } => format!("C {at}"),
    }
}

pub fn step(s: &SeekStep) -> String {
    match s {
        SeekStep::More(s) => format!("more {}", state(*s)),
        SeekStep::Scan(s) => format!("scan {}", state(*s)),
        SeekStep::Done(x) => format!("done {}", optional(*x)),
    }
}

pub fn result(r: &ParserResult) -> String {
    match r {
        ParserResult::ValidCommand { id, payload } => format!("C {id} {} {}", payload.len(), sum(payload)),
        ParserResult::ValidFrame { frame: f } => format!(
            "F {} {} {} {} {} {} {}",
            f.timestamp,
            f.channel,
            f.speed,
            f.region as u8,
            f.rssi,
            f.payload.len(),
            sum(&f.payload)
        ),
        ParserResult::IncompleteFrame => "I".into(),
        ParserResult::InvalidFrame => "X".into(),
    }
}

/// The whole parser as numbers, read from its derived Debug since its fields are private: state (0 idle to 10), command id,
/// length, bytes of payload to come, frame type, whether half a timestamp is there, then the frame's region, channel, speed,
/// timestamp, RSSI, and its payload's length and sum. The field `rssi` beside the frame is never written by the Rust: it has to
/// be 0, and is left out.
pub fn left(p: &Parser) -> String {
    const STATES: [&str; 11] = [
        "AwaitStartOfFrame",
        "AwaitCommandID",
        "AwaitLength",
        "AwaitPayload",
        "AwaitType",
        "AwaitTimestamp",
        "AwaitChannelAndSpeed",
        "AwaitRegion",
        "AwaitRssi",
        "AwaitStartofDataOne",
        "AwaitStartofDataTwo",
    ];
    let text = format!("{p:?}");
    let (head, payload) = text.split_once("payload: [").unwrap();
    let (own, frame) = head.split_once("frame: Frame { ").unwrap();
    let own = own.strip_prefix("Parser { ").unwrap();
    let mut out = Vec::new();
    for (inside, part) in own.split(", ").map(|x| (false, x)).chain(frame.split(", ").map(|x| (true, x))) {
        let Some((name, v)) = part.split_once(": ") else { continue };
        let number = match name {
            "state" => STATES.iter().position(|s| *s == v).unwrap() as u64,
            "timestamp_state" => (v == "true") as u64,
            "region" => v.parse::<Region>().unwrap() as u64,
            _ => v.parse().unwrap(),
        };
        if !inside && name == "rssi" {
            assert_eq!(number, 0);
        } else {
            out.push(number.to_string());
        }
    }
    let bytes: Vec<u8> =
        payload.split(']').next().unwrap().split(", ").filter(|x| !x.is_empty()).map(|x| x.parse().unwrap()).collect();
    format!("{} {} {}", out.join(" "), bytes.len(), sum(&bytes))
}
