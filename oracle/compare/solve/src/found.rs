//! Looks for lists that show the faults of the wrong stand-ins.

use crate::cases::Cases;
use crate::cases::Class;
use crate::compare::Desk;
use crate::compare::judged;
use crate::fault::Fault;
use crate::port::Port;

/// Heavy lists are asked in smaller numbers.
fn share(class: Class, count: u64) -> u64 {
    match class {
        Class::Full | Class::Large | Class::Deep | Class::Clash | Class::Again => count / 30,
        _ => count,
    }
}

pub struct Hunt {
    left: Vec<(Fault, String)>,
    /// What was found, and where.
    pub found: Vec<String>,
    desk: Desk,
}

impl Default for Hunt {
    fn default() -> Self {
        Hunt::new()
    }
}

impl Hunt {
    pub fn new() -> Hunt {
        Hunt { left: Fault::all(), found: Vec::new(), desk: Desk::default() }
    }

    /// Asks all wrong stand-ins about lists of every class, about few of them first, each until one shows its fault.
    pub fn all(&mut self, seed: u64, count: u64) -> Result<(), String> {
        for count in [count / 300, count / 10, count] {
            for (class, _) in Class::ALL {
                self.lists(class, seed, share(class, count))?;
            }
        }
        Ok(())
    }

    /// The first lists of a class, while wrong stand-ins are left.
    fn lists(&mut self, class: Class, seed: u64, count: u64) -> Result<(), String> {
        let cases = Cases::new(class, seed);
        for index in 0..count {
            if self.left.is_empty() {
                break;
            }
            let Some(case) = cases.case(index) else { break };
            let expected = judged(&case)?;
            let mut left = case.call.clone();
            expected.leave(&mut left);
            let (desk, found) = (&mut self.desk, &mut self.found);
            self.left.retain(|(fault, what)| match desk.ask(Port::Wrong(*fault), &case.call, &expected, &left) {
                Ok(()) => true,
                Err(message) => {
                    found.push(format!("{what}: found, {} number {index}, {message}", class.name()));
                    false
                }
            });
        }
        Ok(())
    }

    /// What was not found.
    pub fn missed(&self) -> Vec<&str> {
        self.left.iter().map(|(_, what)| what.as_str()).collect()
    }
}

#[cfg(test)]
mod tests {
    use super::*;

    #[test]
    fn wrong_ports_are_found() {
        let mut hunt = Hunt::new();
        hunt.all(3, 50_000).expect("the judges agree");
        assert_eq!(hunt.missed(), Vec::<&str>::new());
    }
}
