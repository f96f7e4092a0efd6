//! The Z-Wave frame in the body of a PTI record, and the speed of a channel.
use crate::sys;

/// Direction a PTI frame was observed in.
#[derive(Debug, Clone, Copy, PartialEq, Eq)]
pub enum Direction {
    Rx,
    Tx,
}

impl Direction {
    pub(crate) fn of(number: u8) -> Self {
        if number == 1 { Direction::Tx } else { Direction::Rx }
    }
}

/// A Z-Wave frame recovered from a PTI record.
#[derive(Debug, Clone, PartialEq, Eq)]
pub struct PtiFrame {
    pub direction: Direction,
    /// Region id, as encoded by PTI.
    pub region: u8,
    pub channel: u8,
    /// 0 = 9.6k, 1 = 40k, 2 = 100k, 3 = Long Range.
    pub speed: u8,
    /// Raw RSSI byte; zero for transmitted frames, which carry no RSSI.
    pub rssi: i8,
    /// Number of beam repetitions, when this is a wake-up beam.
    pub beam_count: Option<u16>,
    /// The Z-Wave MPDU.
    pub mpdu: Vec<u8>,
}

impl PtiFrame {
    /// True when the frame is a wake-up beam rather than a regular MPDU.
    pub fn is_beam(&self) -> bool {
        self.beam_count.is_some()
    }
}

/// Decode one PTI record body into a Z-Wave frame.
pub fn parse_record(data: &[u8]) -> Option<PtiFrame> {
    let a = unsafe { sys::zlf_frame(data.as_ptr(), data.len()) };
    a.is_frame.then(|| PtiFrame {
        direction: Direction::of(a.direction),
        region: a.region,
        channel: a.channel,
        speed: a.speed,
        rssi: a.rssi,
        beam_count: (a.beam_count != 0).then_some(a.beam_count),
        mpdu: data[a.mpdu..a.mpdu + a.mpdu_len].to_vec(),
    })
}

/// Bit rate implied by a channel and a region: 0 = 9.6k, 1 = 40k, 2 = 100k, 3 = Long Range.
pub fn speed_for(channel: u8, region: u8) -> u8 {
    unsafe { sys::zlf_speed(channel, region) }
}
