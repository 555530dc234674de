//! The lines of an input of any length, in bounded memory.

use std::io;
use std::io::BufRead;
use std::io::ErrorKind;

use crate::fault::Fault;

/// Bytes of a line that are kept. It is above the longest line that may be a sort, and a line of
/// which so much is kept is refused whatever follows.
const KEPT: usize = 256;

pub struct Lines<R> {
    input: R,
    fault: Option<Fault>,
    ended: bool,
}

impl<R: BufRead> Lines<R> {
    pub fn new(input: R, fault: Option<Fault>) -> Lines<R> {
        Lines { input, fault, ended: false }
    }

    /// The next line without its LF. What stands after the last LF is a line if it is not empty.
    pub fn next_line(&mut self) -> io::Result<Option<Vec<u8>>> {
        let Some(mut line) = self.next_any()? else { return Ok(None) };
        match self.fault {
            Some(Fault::EmptyLineSkipped) if line.is_empty() => return self.next_line(),
            Some(Fault::NulEndsLine) => line.truncate(line.iter().position(|&byte| byte == 0).unwrap_or(line.len())),
            Some(Fault::CarriageReturnDropped) if line.last() == Some(&b'\r') => line.truncate(line.len() - 1),
            _ => {}
        }
        Ok(Some(line))
    }

    fn next_any(&mut self) -> io::Result<Option<Vec<u8>>> {
        let mut line = Vec::new();
        let mut is_empty = true;
        loop {
            let block = match self.input.fill_buf() {
                Err(error) if error.kind() == ErrorKind::Interrupted => continue,
                block => block?,
            };
            if block.is_empty() {
                return Ok(self.rest(line, is_empty));
            }
            let lf = block.iter().position(|&byte| byte == b'\n');
            let mut part = &block[..lf.unwrap_or(block.len())];
            let cut = self.fault == Some(Fault::LongLineCut) && line.len() + part.len() > 200;
            if cut {
                part = &part[..200 - line.len()];
            }
            let room = KEPT - line.len();
            line.extend_from_slice(&part[..part.len().min(room)]);
            is_empty = false;
            let ends = lf.is_some() && !cut;
            let used = part.len() + usize::from(ends);
            self.input.consume(used);
            if ends || cut {
                return Ok(Some(line));
            }
        }
    }

    /// The line that the input's end ends.
    fn rest(&mut self, line: Vec<u8>, is_empty: bool) -> Option<Vec<u8>> {
        let is_line = match self.fault {
            Some(Fault::LastWithoutLfLost) => false,
            Some(Fault::EmptyRestIsLine) => !self.ended,
            _ => !is_empty,
        };
        self.ended = true;
        is_line.then_some(line)
    }
}
