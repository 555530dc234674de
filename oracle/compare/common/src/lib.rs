//! What the comparisons of the port with the excerpt share: lists of sorts under construction, junk
//! in unused words, guard words, times of calls, options, and a watch for calls that do not end.

pub mod clock;
pub mod crowd;
pub mod draft;
pub mod guard;
pub mod junk;
pub mod options;
pub mod times;
pub mod watch;
