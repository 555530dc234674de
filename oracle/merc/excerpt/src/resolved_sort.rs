#![allow(dead_code)] // The excerpt has items that only the rest of merc uses.

include!(concat!(env!("OUT_DIR"), "/resolved_sort.rs"));

pub(crate) mod bridge;
