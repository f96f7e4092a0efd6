//! The C interface as include/zlf.h has it: its structs and functions, with the header's names and fields.
#![allow(non_camel_case_types)]

#[repr(C)]
#[derive(Debug, Clone, Copy, PartialEq, Eq)]
pub struct zlf_opening {
    pub refusal: u32,
    pub version: u32,
}

#[repr(C)]
#[derive(Debug, Clone, Copy, PartialEq, Eq)]
pub struct zlf_sequence {
    pub refusal: u32,
    pub version: u32,
    pub place: usize,
    pub count: u64,
}

#[repr(C)]
#[derive(Debug, Clone, Copy, PartialEq, Eq)]
pub struct zlf_next_record {
    pub refusal: u32,
    pub is_record: bool,
    pub offset: usize,
    pub ticks: u64,
    pub outgoing: bool,
    pub session: u8,
    pub end_byte: u8,
    pub kind: u8,
    pub payload: usize,
    pub size: usize,
    pub negative: i32,
    pub place: usize,
    pub count: u64,
}

#[repr(C)]
#[derive(Debug, Clone, Copy, PartialEq, Eq)]
pub struct zlf_record_answer {
    pub refusal: u32,
    pub is_valid: bool,
    pub offset: usize,
    pub ticks: u64,
    pub outgoing: bool,
    pub session: u8,
    pub size: usize,
    pub end_byte: u8,
    pub kind: u8,
    pub next: usize,
    pub millis: u64,
}

#[repr(C)]
#[derive(Debug, Clone, Copy, PartialEq, Eq)]
pub struct zlf_search_answer {
    pub refusal: u32,
    pub is_found: bool,
    pub offset: usize,
    pub judged: usize,
}

#[repr(C)]
#[derive(Debug, Clone, Copy, PartialEq, Eq)]
pub struct zlf_span_answer {
    pub refusal: u32,
    pub is_found: bool,
    pub first: u64,
    pub last: u64,
}

#[repr(C)]
#[derive(Debug, Clone, Copy, PartialEq, Eq)]
pub struct zlf_seek_answer {
    pub refusal: u32,
    pub is_found: bool,
    pub offset: usize,
    pub halvings: usize,
}

#[repr(C)]
#[derive(Debug, Clone, Copy, PartialEq, Eq)]
pub struct zlf_plain_answer {
    pub refusal: u32,
    pub is_found: bool,
    pub offset: usize,
}

#[repr(C)]
#[derive(Debug, Clone, Copy, PartialEq, Eq)]
pub struct zlf_state {
    pub searching: bool,
    pub lo: usize,
    pub hi: usize,
    pub at: usize,
}

#[repr(C)]
#[derive(Debug, Clone, Copy, PartialEq, Eq)]
pub struct zlf_start_answer {
    pub refusal: u32,
    pub state: zlf_state,
}

#[repr(C)]
#[derive(Debug, Clone, Copy, PartialEq, Eq)]
pub struct zlf_step_answer {
    pub refusal: u32,
    pub answer: u32,
    pub state: zlf_state,
    pub is_found: bool,
    pub offset: usize,
}

#[repr(C)]
#[derive(Debug, Clone, Copy, Default, PartialEq, Eq)]
pub struct zlf_row {
    pub record: usize,
    pub position: usize,
    pub millis: i64,
    pub gap: i64,
    pub direction: u8,
    pub region: u8,
    pub channel: u8,
    pub speed: u8,
    pub rssi: i8,
    pub beam_count: u16,
    pub mpdu: usize,
    pub mpdu_len: usize,
}

#[repr(C)]
#[derive(Debug, Clone, Copy, PartialEq, Eq)]
pub struct zlf_page_answer {
    pub refusal: u32,
    pub start: usize,
    pub size: usize,
    pub is_more: bool,
    pub next: usize,
}

#[repr(C)]
#[derive(Debug, Clone, Copy, PartialEq, Eq)]
pub struct zlf_seam_answer {
    pub refusal: u32,
    pub is_unbroken: bool,
    pub place: usize,
    pub records: usize,
}

#[repr(C)]
#[derive(Debug, Clone, Copy, PartialEq, Eq)]
pub struct zlf_frame_answer {
    pub is_frame: bool,
    pub direction: u8,
    pub region: u8,
    pub channel: u8,
    pub speed: u8,
    pub rssi: i8,
    pub beam_count: u16,
    pub mpdu: usize,
    pub mpdu_len: usize,
}

#[repr(C)]
#[derive(Debug, Clone, Copy, PartialEq, Eq)]
pub struct zlf_parser {
    pub state: u8,
    pub command_id: u8,
    pub length: u8,
    pub count: u8,
    pub frame_type: u8,
    pub timestamp: u16,
    pub timestamp_state: bool,
    pub channel: u8,
    pub speed: u8,
    pub region: u8,
    pub rssi: u8,
    pub payload: [u8; 255],
}

#[repr(C)]
#[derive(Debug, Clone, Copy, PartialEq, Eq)]
pub struct zlf_result {
    pub which: u8,
    pub id: u8,
    pub timestamp: u16,
    pub channel: u8,
    pub speed: u8,
    pub region: u8,
    pub rssi: u8,
    pub length: u8,
}

#[repr(C)]
#[derive(Debug, Clone, Copy, PartialEq, Eq)]
pub struct zlf_parsed {
    pub result: zlf_result,
    pub used: usize,
    pub payload: [u8; 255],
}

#[link(name = "zlf", kind = "static")]
unsafe extern "C" {
    pub fn zlf_open(trace: *const u8, len: usize, version: u32) -> zlf_opening;
    pub fn zlf_open_sequence(trace: *const u8, len: usize, version: u32) -> zlf_sequence;
    pub fn zlf_next(kinds: *const u8, trace: *const u8, len: usize, place: usize, count: u64) -> zlf_next_record;
    pub fn zlf_record(kinds: *const u8, trace: *const u8, len: usize, offset: usize) -> zlf_record_answer;
    pub fn zlf_search(kinds: *const u8, trace: *const u8, len: usize, from: usize, window: usize) -> zlf_search_answer;
    pub fn zlf_span(kinds: *const u8, trace: *const u8, len: usize) -> zlf_span_answer;
    pub fn zlf_seek(kinds: *const u8, trace: *const u8, len: usize, time: i64) -> zlf_seek_answer;
    pub fn zlf_plain_seek(kinds: *const u8, trace: *const u8, len: usize, time: i64) -> zlf_plain_answer;
    pub fn zlf_seek_start(kinds: *const u8, trace: *const u8, len: usize) -> zlf_start_answer;
    pub fn zlf_seek_step(kinds: *const u8, trace: *const u8, len: usize, time: i64, state: zlf_state) -> zlf_step_answer;
    pub fn zlf_page(kinds: *const u8, trace: *const u8, len: usize, offset: usize, count: usize, table: *mut zlf_row, room: usize) -> zlf_page_answer;
    pub fn zlf_seam(kinds: *const u8, trace: *const u8, len: usize, place: usize) -> zlf_seam_answer;
    pub fn zlf_frame(body: *const u8, len: usize) -> zlf_frame_answer;
    pub fn zlf_fresh() -> zlf_parser;
    pub fn zlf_parse(parser: *mut zlf_parser, bytes: *const u8, len: usize) -> zlf_parsed;
    pub fn zlf_millis(raw: u64) -> i64;
    pub fn zlf_speed(channel: u8, region: u8) -> u8;
}
