//! cases SET SEED: writes the cases of a set on standard output (compare/FORMAT.md), the same ones for the same seed.
//!
//! Each set opens with the kind table and the version, taken from the built Rust: they are typed in nowhere.
//! With no SET, it lists the sets.
mod bundles;
mod leaves;
mod pages;
mod plain;
mod pti;
mod random;
mod searches;
mod seeks;
mod sums;
mod traces;
mod zniffer;

use random::Random;
use std::io::Write;
use zniff_core::zlf::ApiType;
use zniff_core::zlf::types::ZLF_VERSION;

/// What crates/replay reads at most.
const ROOM: usize = 4_194_304;

/// A set's name, what it has, how many random cases of each sort it takes, and the function that writes them.
struct Set {
    name: &'static str,
    text: &'static str,
    most: usize,
    write: fn(&mut Cases, &mut Random, usize),
}

const SETS: &[Set] = &[
    Set { name: "sample", text: "some of each set below, which rt ci runs", most: 8, write: sample },
    Set { name: "times", text: "stored ticks at every limit of every range, and random ones", most: 60_000, write: leaves::times },
    Set { name: "speeds", text: "all 65,536 speeds at once, and pairs one by one", most: 20_000, write: leaves::speeds },
    Set { name: "bodies", text: "PTI bodies, damaged and random ones, and beams at the ceiling of their count", most: 9_000, write: pti::bodies },
    Set { name: "payloads", text: "PTI payloads, damaged and random ones", most: 7_000, write: pti::payloads },
    Set { name: "payloads-small", text: "every PTI payload of up to 6 bytes over the bytes that matter", most: 1_000, write: pti::small },
    Set { name: "streams", text: "Zniffer bytes, damaged and random ones, byte by byte and at once", most: 5_000, write: zniffer::streams },
    Set { name: "streams-states", text: "every byte in every state of the Zniffer parser", most: 1_000, write: zniffer::everywhere },
    Set { name: "streams-small", text: "every stream of up to 3 bytes over the bytes that matter, byte by byte", most: 1_000, write: zniffer::small },
    Set { name: "streams-once", text: "the same at once", most: 1_000, write: zniffer::small_at_once },
    Set { name: "streams-begun", text: "a second call in every state of the Zniffer parser", most: 1_000, write: zniffer::begun },
    Set { name: "streams-cut", text: "Zniffer frames and commands cut at each byte, and the rest in a second call", most: 1_000, write: zniffer::cut },
    Set { name: "streams-headers", text: "every byte at every place of a Zniffer frame's header and of a command's", most: 1_000, write: zniffer::changed },
    Set { name: "streams-ignored", text: "bytes that an idle Zniffer parser ignores, no to 70 and some hundreds, before what it does not", most: 1_000, write: zniffer::idle },
    Set { name: "streams-pieces", text: "Zniffer frames, commands and noise, cut into pieces at random", most: 1_000, write: zniffer::pieces },
    Set { name: "traces", text: "records, searches and sequential reads on traces, and on damaged copies of them", most: 200, write: traces::traces },
    Set { name: "traces-edges", text: "every limit of the record test, of openings and of the sequential reader", most: 1_000, write: traces::edges },
    Set { name: "traces-large", text: "a record of the largest length, and searches over it", most: 1_000, write: traces::large },
    Set { name: "searches", text: "a boundary and a window's end at every distance of 0 to 100 offsets, after bytes of every sort", most: 1_000, write: searches::edges },
    Set { name: "searches-ends", text: "the trace's end at every such distance", most: 1_000, write: searches::ends_of_traces },
    Set { name: "searches-near", text: "false candidates at every such distance before a boundary, alone and in pairs", most: 1_000, write: searches::candidates },
    Set { name: "sums", text: "header sums of every length up to 4,096, from every place of a word, of single bits, and random ones", most: 20_000, write: sums::sums },
    Set { name: "sums-headers", text: "openings in sequence of headers with any one bit changed", most: 1_000, write: sums::headers },
    Set { name: "pages", text: "pages, chains of pages, seam checks and openings on traces, and on damaged copies of them", most: 250, write: pages::pages },
    Set { name: "pages-example", text: "the same from every offset of 01's example", most: 1_000, write: pages::example },
    Set { name: "pages-full", text: "pages of 599, 600, 601 and no rows, for a table of 600", most: 1_000, write: pages::full },
    Set { name: "pages-zniffer", text: "pages of Zniffer records: the streams above, and frames cut short", most: 1_000, write: pages::zniffer },
    Set { name: "seeks", text: "spans, seeks and single steps on traces of a few records", most: 2_000, write: seeks::small },
    Set { name: "seeks-halved", text: "the same on traces of 300 to 700 KB, on which bounds cross", most: 600, write: seeks::halved },
    Set { name: "seeks-gaps", text: "the same with gaps larger than the window", most: 300, write: seeks::gaps },
    Set { name: "seeks-large", text: "the same on a trace of nearly 4 MB with all of that", most: 300, write: seeks::large },
    Set { name: "seeks-longest", text: "the same with payloads of the largest length", most: 300, write: seeks::longest },
    Set { name: "plain", text: "plain, whole and stepped seeks around every record of small traces, on the premises of 02's request 10", most: 3_900, write: plain::small },
    Set { name: "plain-halved", text: "the same on traces of 300 to 700 KB with records over 65,536 bytes, on which bounds cross", most: 600, write: plain::halved },
    Set { name: "plain-large", text: "the same on a trace with records larger than the window", most: 1_000, write: plain::large },
    Set { name: "plain-off", text: "the same where the premises do not hold, each alone and together", most: 1_100, write: plain::off },
    Set { name: "bundles", text: "groups of three PTI payloads, alone and joined, and two as two records and as one; for 02's request 12", most: 350, write: bundles::bundles },
    Set { name: "bundles-small", text: "every such group of small payloads at which something changes, alone and joined", most: 1_000, write: bundles::small },
];

fn sample(cases: &mut Cases, r: &mut Random, most: usize) {
    SETS.iter().skip(1).for_each(|s| (s.write)(cases, r, most));
}

/// The cases of a set, as they are written.
pub struct Cases {
    pub bytes: Vec<u8>,
    pub count: u64,
}

impl Cases {
    /// A case: its letter, then its fields.
    pub fn add(&mut self, letter: u8, fields: &[&[u8]]) {
        self.bytes.push(letter);
        for f in fields {
            self.bytes.extend_from_slice(f);
        }
        self.count += 1;
    }

    /// A case whose fields are a length and bytes.
    pub fn block(&mut self, letter: u8, bytes: &[u8]) {
        self.add(letter, &[&(bytes.len() as u32).to_le_bytes(), bytes]);
    }

    /// Such a case for every string of up to so many of these bytes.
    pub fn every(&mut self, letter: u8, of: &[u8], length: u32) {
        for n in 0..=length {
            for mut k in 0..of.len().pow(n) {
                let mut bytes = Vec::new();
                for _ in 0..n {
                    bytes.push(of[k % of.len()]);
                    k /= of.len();
                }
                self.block(letter, &bytes);
            }
        }
    }
}

/// The kind table, as the Rust reads end bytes.
pub fn kinds() -> Vec<u8> {
    let number = |a: ApiType| match a {
        ApiType::Unknown(_) => 0,
        ApiType::Pti => 1,
        ApiType::PtiDiagnostic => 2,
        ApiType::Zniffer => 3,
        _ => 4,
    };
    (0..=255).map(|e| number(ApiType::from_eod(e))).collect()
}

fn main() {
    let words: Vec<String> = std::env::args().skip(1).collect();
    let set = words.first().and_then(|w| SETS.iter().find(|s| s.name == w));
    let (Some(set), Some(seed)) = (set, words.get(1).and_then(|w| w.parse().ok())) else {
        eprintln!("usage: cases SET SEED, where SET is one of");
        SETS.iter().for_each(|s| eprintln!("  {:10} {}", s.name, s.text));
        std::process::exit(2);
    };
    let mut cases = Cases { bytes: Vec::new(), count: 0 };
    cases.add(b'K', &[&ZLF_VERSION.to_le_bytes(), &kinds()]);
    (set.write)(&mut cases, &mut Random::new(seed), set.most);
    if cases.bytes.len() > ROOM {
        eprintln!("cases: {} {seed} has {} bytes, and replay reads {ROOM}: take fewer", set.name, cases.bytes.len());
        std::process::exit(2);
    }
    std::io::stdout().write_all(&cases.bytes).unwrap();
    eprintln!("cases: {} {}: {} cases", set.name, seed, cases.count);
}
