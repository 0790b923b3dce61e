//! Safe Rust over the proved query gateway of Cefjolik, without dependencies: docs/LIBRARY.md.
//!
//! - `gateway`: a gateway, by calls with types
//! - `bus`: a bus of storages
//! - `types`: what is said to a gateway, and what it answers
//! - `raw`: what is spoken to by lines; whether keys meet
//!
//! What stands behind the functions of `zq.h` is proved; this crate is not. What it has to get right is the list "What callers
//! owe" there: each `unsafe` says how.
mod bus;
mod gateway;
mod raw;
mod types;
mod words;

pub use bus::{Bus, BusError, BusRefusal};
pub use gateway::{Ask, Error, Gateway, Messages, Opening, Tree};
pub use raw::{key_includes, keys_meet, Fault, Speaker};
pub use types::{Body, Bound, Message, Mode, Outcome, Refusal, Region, Step, Target, Wire};
pub use words::{escape, unescape};
