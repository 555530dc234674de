//! Reads a line as a sort.
//!
//! ```text
//! sort    = operand | operand { "#" operand } "->" sort
//! operand = basic word | container word "(" sort ")"
//! ```
//!
//! with at most 16 operands before an arrow.

use crate::fault::Fault;
use crate::sort::BASIC;
use crate::sort::CONTAINERS;
use crate::sort::Sort;
use crate::sort::kind_of;
use crate::token::Token;
use crate::token::token;

const MOST_ARGUMENTS: usize = 16;

/// The sort of a line, or where the first token starts that cannot follow those before it: at the
/// line's length if the line stopped too early.
pub fn read(line: &[u8], fault: Option<Fault>) -> Result<Sort, usize> {
    let mut reader = Reader { line, at: 0, arguments: 0, fault };
    let sort = reader.sort()?;
    match reader.peek() {
        (Token::End, ..) => Ok(sort),
        (_, start, _) => Err(start),
    }
}

struct Reader<'a> {
    line: &'a [u8],
    at: usize,
    /// Operands before the last arrow, for a wrong reader that counts on.
    arguments: usize,
    fault: Option<Fault>,
}

impl<'a> Reader<'a> {
    fn peek(&self) -> (Token<'a>, usize, usize) {
        token(self.line, self.at, self.fault)
    }

    /// Goes past the next token if it is this one.
    fn take(&mut self, wanted: Token) -> bool {
        let (token, _, end) = self.peek();
        if token == wanted {
            self.at = end;
        }
        token == wanted
    }

    /// The next token cannot follow.
    fn refuse<T>(&self) -> Result<T, usize> {
        let (_, start, _) = self.peek();
        Err(start)
    }

    fn sort(&mut self) -> Result<Sort, usize> {
        let mut operands = vec![self.operand()?];
        while operands.len() < self.most_arguments() && self.take(Token::Hash) {
            operands.push(self.operand()?);
        }
        if self.take(Token::Arrow) {
            return self.function(operands);
        }
        match operands.pop() {
            Some(operand) if operands.is_empty() => Ok(operand),
            _ => self.refuse(),
        }
    }

    /// The function whose arguments and arrow have been read.
    fn function(&mut self, mut arguments: Vec<Sort>) -> Result<Sort, usize> {
        self.arguments = arguments.len();
        let range = self.sort()?;
        self.arguments = 0;
        match (self.fault, range) {
            (Some(Fault::ArrowTighter), _) if arguments.len() > 1 => self.refuse(),
            // (A -> B) -> C, where A -> (B -> C) is meant.
            (Some(Fault::ArrowsLeft), Sort::Function(mut middle, last)) if middle.len() == 1 => {
                let first = Sort::Function(std::mem::take(&mut arguments), Box::new(middle.remove(0)));
                Ok(Sort::Function(vec![first], last))
            }
            (_, range) => Ok(Sort::Function(arguments, Box::new(range))),
        }
    }

    fn operand(&mut self) -> Result<Sort, usize> {
        let (Token::Word(word), _, end) = self.peek() else { return self.refuse() };
        if let Some(kind) = self.kind(&BASIC, word) {
            self.at = end;
            return Ok(Sort::Basic(kind));
        }
        let Some(kind) = self.kind(&CONTAINERS, word) else { return self.refuse() };
        self.at = end;
        if !self.take(Token::Open) {
            return self.refuse();
        }
        let part = self.sort()?;
        if !self.take(Token::Close) {
            return self.refuse();
        }
        Ok(Sort::Container(kind, Box::new(part)))
    }

    fn kind(&self, words: &[(&str, u16)], word: &[u8]) -> Option<u16> {
        match self.fault {
            Some(Fault::AnyCase) => {
                let found = words.iter().find(|(other, _)| other.as_bytes().eq_ignore_ascii_case(word));
                found.map(|&(_, kind)| kind)
            }
            _ => kind_of(words, word),
        }
    }

    fn most_arguments(&self) -> usize {
        match self.fault {
            Some(Fault::SeventeenArguments) => MOST_ARGUMENTS + 1,
            Some(Fault::CountGoesOn) => (MOST_ARGUMENTS - self.arguments).max(1),
            _ => MOST_ARGUMENTS,
        }
    }
}

#[cfg(test)]
mod tests {
    use super::*;

    fn unread(line: &str) -> Option<&str> {
        read(line.as_bytes(), None).err().map(|at| &line[at..])
    }

    #[test]
    fn the_unread_end_starts_at_the_first_token_that_cannot_follow() {
        assert_eq!(unread("Nat ( Pos"), Some("( Pos"));
        assert_eq!(unread("List(Nat # Pos -> Bool)"), None);
        assert_eq!(unread("List(Nat # Pos)"), Some(")"));
        assert_eq!(unread("Nat #  "), Some(""));
    }

    #[test]
    fn arrows_group_to_the_right_and_bind_less_than_products() {
        let basic = |word: &str| Sort::Basic(kind_of(&BASIC, word.as_bytes()).expect("a basic word"));
        let inner = Sort::Function(vec![basic("Pos"), basic("Bool")], Box::new(basic("Nat")));
        let outer = Sort::Function(vec![basic("Nat")], Box::new(inner));
        assert_eq!(read(b"Nat->Pos#Bool->Nat", None), Ok(outer));
    }
}
