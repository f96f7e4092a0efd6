//! Stands for zlf/mod.rs, which is not in docs/src: its two modules, and the names that the other files take from it.
pub mod reader;
pub mod types;
pub use reader::{Timestamp, ZLF_HEADER_SIZE, ZlfError, ZlfReader, ZlfRecord};
pub use types::ApiType;
