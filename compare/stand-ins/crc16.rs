//! Stands for the crate crc16, which is not in docs/src: `State::<AUG_CCITT>::calculate`, that zlf/reader.rs calls.
//!
//! The name fixes the rule: CRC-16/AUG-CCITT is the CRC catalogue's alias of CRC-16/SPI-FUJITSU, width 16, polynomial 0x1021,
//! start 0x1d0f, high bit first, no final change, check value 0xe5cc for "123456789". It is written here from the catalogue,
//! so the header sum rests on the catalogue and on no other program (docs/DIFFERENCES.md). The oracle runs the check value
//! before it answers anything.
use std::marker::PhantomData;

#[allow(non_camel_case_types)]
pub struct AUG_CCITT;

pub struct State<C>(PhantomData<C>);

impl State<AUG_CCITT> {
    pub fn calculate(data: &[u8]) -> u16 {
        let mut crc = 0x1d0fu16;
        for &b in data {
            crc ^= (b as u16) << 8;
            for _ in 0..8 {
                crc = if crc & 0x8000 != 0 { (crc << 1) ^ 0x1021 } else { crc << 1 };
            }
        }
        crc
    }
}
