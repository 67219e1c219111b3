//! An independent model of the AXI4 to AXI4-Lite bridge, written from docs/*.md alone.
#![forbid(unsafe_code)]

pub mod bench;
pub mod bridge;
pub mod cover;
pub mod dice;
pub mod make;
pub mod pack;
pub mod player;
pub mod reader;
pub mod rules;

pub use bridge::{Bridge, Inputs, Outcome, Slots, Wires};
pub use player::{play, play_seen, Played};
pub use rules::{Burst, Plan, Refusal, Verdict};
