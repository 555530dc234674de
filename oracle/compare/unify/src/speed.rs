//! Times of unify. Each call is timed alone and from the same state: the port is handed the bindings as they were given,
//! and for merc the list is put in anew, outside the time, before each call.

use std::hint::black_box;

use common::clock::Clock;
use common::times::Times;
use lists::memory::Memory;
use lists::memory::kind;
use merc_plain::Places;

use crate::compare::Lent;
use crate::port::Port;

/// The checks alone are the question whether Bool and Bool unify.
pub fn times(clock: &Clock, memory: &Memory, (lhs, rhs): (u16, u16), repeats: usize) -> Times {
    let given = Lent::new(memory);
    let port =
        |lhs: u16, rhs: u16| clock.time(repeats, || given.clone(), |lent| Port::Library.ask(lent, memory, lhs, rhs));
    let load = || Places::load(black_box(memory));
    Times {
        port: port(lhs, rhs),
        checks: port(kind::BOOL, kind::BOOL),
        merc: clock.time(repeats, load, |places| places.unify(lhs, rhs)),
        load: clock.time(repeats, || (), |()| load()),
    }
}
