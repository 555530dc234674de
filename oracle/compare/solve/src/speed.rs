//! Times of the solver. Each call is timed alone and from the same state: the port is handed fresh buffers, and for merc
//! the list is put in anew, both outside the time, before each call.

use std::hint::black_box;

use common::clock::Clock;
use common::times::Times;
use lists::memory::SCRATCH;
use lists::verdict::Verdict;
use merc_plain::Listed;

use crate::call::Call;
use crate::call::Lent;
use crate::call::Slice;
use crate::expected::Expected;
use crate::expected::Outcome;
use crate::port::Entry;
use crate::port::Port;

/// Whether the search of a list comes to its end, and the port answers as the excerpt does.
pub fn ends(call: &Call) -> bool {
    let Ok(expected) = Expected::of(&call.memory) else { return false };
    let ends = matches!(expected.outcome, Outcome::Searched { .. });
    ends && port(&mut Lent::new(call), call) == expected.packed(&call.memory)
}

pub fn port(lent: &mut Lent, call: &Call) -> u64 {
    Port::Library(Entry::Words).ask(lent, &call.memory)
}

pub fn merc(listed: &mut Listed) -> Verdict {
    listed.solve()
}

pub fn load(call: &Call) -> Listed<'_> {
    Listed::load(black_box(&call.memory))
}

/// The same call with a scratch one word short, which is refused with 14 after all other checks.
pub fn checks_alone(call: &Call) -> Call {
    let mut short = call.clone();
    short.lend(Slice::Scratch, SCRATCH - 1, 0);
    short
}

pub fn times(clock: &Clock, call: &Call, repeats: usize) -> Times {
    let port = |call: &Call| {
        let given = Lent::new(call);
        clock.time(repeats, || given.clone(), |lent| port(lent, call))
    };
    Times {
        port: port(call),
        checks: port(&checks_alone(call)),
        merc: clock.time(repeats, || load(call), merc),
        load: clock.time(repeats, || (), |()| load(call)),
    }
}
