//! The lines of an input of any length, in bounded memory.

use std::io;
use std::io::BufRead;
use std::io::ErrorKind;

use crate::fault::Fault;

/// Bytes of a line that are looked at.
pub const LOOKED_AT: usize = 201;

pub struct Lines<R> {
    input: R,
    fault: Option<Fault>,
}

impl<R: BufRead> Lines<R> {
    pub fn new(input: R, fault: Option<Fault>) -> Lines<R> {
        Lines { input, fault }
    }

    /// The next line without its LF, or as much of it as is looked at. What stands after the last LF is a line if it is
    /// not empty.
    pub fn next_line(&mut self) -> io::Result<Option<Vec<u8>>> {
        let Some(mut line) = self.next_any()? else { return Ok(None) };
        match self.fault {
            Some(Fault::NulEndsLine) => line.truncate(line.iter().position(|&byte| byte == 0).unwrap_or(line.len())),
            Some(Fault::CarriageReturnDropped) if line.last() == Some(&b'\r') => line.truncate(line.len() - 1),
            _ => {}
        }
        Ok(Some(line))
    }

    fn next_any(&mut self) -> io::Result<Option<Vec<u8>>> {
        let kept = if self.fault == Some(Fault::MoreLookedAt) { 2 * LOOKED_AT } else { LOOKED_AT };
        let mut line = Vec::new();
        let mut is_empty = true;
        loop {
            let block = match self.input.fill_buf() {
                Err(error) if error.kind() == ErrorKind::Interrupted => continue,
                block => block?,
            };
            if block.is_empty() {
                let lost = is_empty || self.fault == Some(Fault::LastWithoutLfLost);
                return Ok((!lost).then_some(line));
            }
            let lf = block.iter().position(|&byte| byte == b'\n');
            let mut part = &block[..lf.unwrap_or(block.len())];
            let cut = self.fault == Some(Fault::LongLineCut) && line.len() + part.len() > LOOKED_AT;
            if cut {
                part = &part[..LOOKED_AT - line.len()];
            }
            line.extend_from_slice(&part[..part.len().min(kept - line.len())]);
            is_empty = false;
            let ends = lf.is_some() && !cut;
            let used = part.len() + usize::from(ends);
            self.input.consume(used);
            if ends || cut {
                return Ok(Some(line));
            }
        }
    }
}
