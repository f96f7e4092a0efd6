//! Stands for the module trace, which is not in docs/src: `build_frame` keeps what cursor.rs hands to it, and decodes nothing.
//!
//! So the oracle sees each frame with its time and its gap as cursor.rs made them. The real `build_frame` decodes the MPDU for
//! display; it is not ported (docs: 01, "Not ported"), and cursor.rs looks at nothing that it returns.
use crate::pti::PtiFrame;

#[derive(Debug, Clone, Default)]
pub struct Definitions;

#[derive(Debug, Clone)]
pub struct TraceFrame {
    pub index: usize,
    pub time_ms: i64,
    pub delta_ms: i64,
    pub frame: PtiFrame,
}

/// What retransmit.rs asks for, so that it compiles; that file is not ported, and nothing calls it.
impl TraceFrame {
    pub fn is_singlecast(&self) -> bool {
        false
    }
    pub fn home_id(&self) -> Option<u32> {
        None
    }
    pub fn source(&self) -> Option<u64> {
        None
    }
    pub fn sequence_number(&self) -> Option<u64> {
        None
    }
}

pub fn build_frame(
    _: &Definitions,
    index: usize,
    time_ms: i64,
    delta_ms: i64,
    frame: PtiFrame,
) -> TraceFrame {
    TraceFrame { index, time_ms, delta_ms, frame }
}
