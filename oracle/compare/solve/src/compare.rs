//! One list put to the port and to the excerpt.

use lists::memory::Memory;

use crate::call::Call;
use crate::call::Lent;
use crate::cases::Case;
use crate::expected::Expected;
use crate::expected::Outcome;
use crate::port::Entry;
use crate::port::Port;

/// The buffers that calls are lent, those of each entry apart.
#[derive(Default)]
pub struct Desk {
    lent: [Lent; Entry::ALL.len()],
}

impl Desk {
    /// Lends the call of a case, and those that follow it the same memory, as it was left. `each` is told what is expected of each.
    pub fn compare(&mut self, case: &mut Case, mut each: impl FnMut(&Memory, &Expected)) -> Result<(), String> {
        self.lent.iter_mut().for_each(|lent| lent.fill(&case.call));
        let expected = self.compare_lent(case)?;
        each(&case.call.memory, &expected);
        for (number, constraints) in std::mem::take(&mut case.again).into_iter().enumerate() {
            case.call.memory.constraint_count = constraints;
            let asked = self.compare_lent(case);
            let expected = asked.map_err(|message| format!("call {} over the same memory: {message}", number + 2))?;
            each(&case.call.memory, &expected);
        }
        Ok(())
    }

    /// Asks the judges and both entries of the library, and compares the answers and all of memory at exit. The case is
    /// left as each call must leave it.
    fn compare_lent(&mut self, case: &mut Case) -> Result<Expected, String> {
        let expected = judged(case)?;
        let mut answers = [0; Entry::ALL.len()];
        for ((lent, answer), (entry, _)) in self.lent.iter_mut().zip(&mut answers).zip(Entry::ALL) {
            *answer = Port::Library(entry).ask(lent, &case.call.memory);
        }
        expected.leave(&mut case.call);
        for ((lent, answer), (_, name)) in self.lent.iter().zip(answers).zip(Entry::ALL) {
            same(lent, answer, &expected, &case.call).map_err(|message| format!("{name}: {message}"))?;
        }
        Ok(expected)
    }

    /// Asks one port about a call, where it is known what is expected and what must be left.
    pub fn ask(&mut self, port: Port, call: &Call, expected: &Expected, left: &Call) -> Result<(), String> {
        let [lent, ..] = &mut self.lent;
        lent.fill(call);
        let answer = port.ask(lent, &call.memory);
        same(lent, answer, expected, left)
    }
}

fn same(lent: &Lent, answer: u64, expected: &Expected, left: &Call) -> Result<(), String> {
    let packed = expected.packed(&left.memory);
    if answer != packed {
        return Err(format!("the answer is {}, expected {}", unpacked(answer), unpacked(packed)));
    }
    lent.same(left).map_err(|message| format!("{message}, after {}", unpacked(answer)))
}

/// What the judges say. A planted fault must be named.
pub fn judged(case: &Case) -> Result<Expected, String> {
    let expected = Expected::of(&case.call.memory)?;
    match case.planted {
        Some(code) if expected.outcome != Outcome::Refused(code) => {
            Err(format!("fault {code} was planted, expected is {:?}", expected.outcome))
        }
        _ => Ok(expected),
    }
}

/// The parts of an answer, for people.
fn unpacked(answer: u64) -> String {
    let part = |from: u32, bits: u32| answer >> from & ((1 << bits) - 1);
    match part(0, 8) {
        code @ (0 | 17 | 18) => {
            let [sorts, entries, components, choices] = [part(8, 16), part(24, 16), part(40, 12), part(52, 12)];
            format!("{code} with {sorts} sorts, {entries} entries, {components} components, {choices} choices")
        }
        _ => answer.to_string(),
    }
}
