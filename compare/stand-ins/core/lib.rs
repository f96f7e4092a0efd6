//! Stands for the crate's own lib.rs, which is not in docs/src: the list of its modules, and no code.
pub mod cursor;
pub mod pti;
pub mod resync;
pub mod retransmit;
pub mod source;
pub mod trace;
pub mod types;
pub mod zlf;
pub mod zniffer_parser;
