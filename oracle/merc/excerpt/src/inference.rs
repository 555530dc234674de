#![allow(dead_code)] // The excerpt has items that only the rest of merc uses.
#![allow(clippy::explicit_counter_loop)] // The counting build adds lines and changes none.

include!(concat!(env!("OUT_DIR"), "/inference.rs"));

pub(crate) mod bridge;
