//! Times and speeds.
use crate::Cases;
use crate::random::Random;

/// 01's numbers: the Unix epoch, the two limits of the record test, and midnight on 1 January 2100, in ticks.
const EPOCH: u64 = 621_355_968_000_000_000;
pub const TICKS_2000: u64 = 630_822_816_000_000_000;
pub const TICKS_2100: u64 = 662_479_488_000_000_000;
const NEW_YEAR_2100: u64 = 662_380_416_000_000_000;

/// Ticks in a millisecond, and in a day.
const MILLISECOND: u64 = 10_000;
const DAY: u64 = 864_000_000_000;

pub fn times(cases: &mut Cases, r: &mut Random, most: usize) {
    let mut add = |raw: u64| cases.add(b'm', &[&raw.to_le_bytes()]);
    // around every number at which something changes, with each value of the two bits of the kind
    let limits = [0, EPOCH, TICKS_2000, NEW_YEAR_2100, TICKS_2100, 1 << 62, 1 << 61, DAY, 3_155_378_976_000_000_000];
    for limit in limits {
        for step in [1, MILLISECOND, 1000 * MILLISECOND, DAY] {
            for n in 0..=5u64 {
                for off in [n * step, (n * step).wrapping_neg(), n * step + 1, (n * step + 1).wrapping_neg()] {
                    for top in 0..4u64 {
                        add((limit.wrapping_add(off) & 0x3FFF_FFFF_FFFF_FFFF) | top << 62);
                    }
                }
            }
        }
    }
    // each power of two, and its neighbours
    for bit in 0..64 {
        for off in [0u64.wrapping_sub(1), 0, 1] {
            add((1u64 << bit).wrapping_add(off));
        }
    }
    for _ in 0..most {
        add(r.u64());
        add(r.between(TICKS_2000, TICKS_2100) | r.below(4) << 62);
        add((EPOCH - 1_000_000 + r.below(2_000_000)) | r.below(4) << 62);
    }
}

pub fn speeds(cases: &mut Cases, r: &mut Random, most: usize) {
    cases.add(b'C', &[]);
    for channel in 0..=20u8 {
        for region in 0..=40u8 {
            cases.add(b'c', &[&[channel], &[region]]);
        }
    }
    for _ in 0..most {
        cases.add(b'c', &[&[r.byte()], &[r.byte()]]);
    }
}
