//! Lists whose room is exactly what the search needs, or less; and lists with high numbers, at the ceilings.

use lists::given::Given;
use lists::memory::*;
use lists::question::Question;
use lists::rng::Rng;
use merc_counting::ledger;

use crate::cases::pad;

/// What a search makes: sorts and sort entries in all, nodes and node entries at one time.
struct Needs {
    sorts: usize,
    entries: usize,
    nodes: usize,
    node_entries: usize,
}

impl Needs {
    fn of(list: &Given) -> Needs {
        let memory = Memory { ceilings: Ceilings::NONE, ..list.memory() };
        let heard = merc_counting::ask(&memory, Question::Solve);
        let tally = ledger::end();
        Needs {
            sorts: heard.new.len(),
            entries: heard.new.iter().map(|sort| sort.arguments.len()).sum(),
            nodes: tally.nodes_peak,
            node_entries: tally.node_entries_peak,
        }
    }
}

/// Room left for what is needed: all of it, one less, or even less.
fn room(rng: &mut Rng, need: usize) -> usize {
    match rng.below(10) {
        0..=3 => need,
        4..=7 => need.saturating_sub(1),
        8 => rng.below(need + 1),
        _ => need + 1,
    }
}

/// How many lists are looked at for one whose search makes something.
const TRIES: u64 = 6;

/// The first of a few lists whose search makes something, with what it makes.
fn making(rng: &mut Rng, list: impl Fn(&mut Rng, u64) -> Given, makes: impl Fn(&Needs) -> bool) -> (Given, Needs) {
    let tries = if rng.chance(10) { 1 } else { TRIES };
    let mut turn = 0;
    loop {
        let list = list(rng, turn);
        let needs = Needs::of(&list);
        turn += 1;
        if makes(&needs) || turn == tries {
            return (list, needs);
        }
    }
}

/// A list with entries and nodes filled up to the room that is left; `list` makes the list of a turn.
pub fn edge(rng: &mut Rng, list: impl Fn(&mut Rng, u64) -> Given) -> Given {
    let (mut list, needs) = making(rng, list, |needs| needs.entries + needs.nodes > 0);
    fill(rng, &mut list, &needs);
    list
}

/// Fills entries and nodes up to the room that is left.
pub fn fill_up(rng: &mut Rng, list: &mut Given) {
    let needs = Needs::of(list);
    fill(rng, list, &needs);
}

fn fill(rng: &mut Rng, list: &mut Given, needs: &Needs) {
    let way = match (needs.entries > 0, needs.node_entries > 0) {
        (true, false) => 1,
        (false, true) => 2,
        _ => rng.pick(&[1, 2, 3]),
    };
    if way & 1 != 0 {
        pad::entries(&mut list.entries, MAX_ENTRIES.saturating_sub(room(rng, needs.entries)));
    }
    if way & 2 != 0 {
        pad::entries(&mut list.node_entries, MAX_NODE_ENTRIES.saturating_sub(room(rng, needs.node_entries)));
    }
    if needs.nodes > 0 && rng.chance(40) {
        pad::nodes(list, MAX_NODES.saturating_sub(room(rng, needs.nodes)));
    }
}

/// A list with sorts filled up to the room that is left, before its own or after, and other lists too.
pub fn sorts_edge(rng: &mut Rng, list: impl Fn(&mut Rng, u64) -> Given) -> Given {
    let (mut list, needs) = making(rng, list, |needs| needs.sorts > 0);
    if rng.chance(30) {
        pad::nodes(&mut list, MAX_NODES - room(rng, needs.nodes));
    }
    if rng.chance(30) {
        pad::entries(&mut list.node_entries, MAX_NODE_ENTRIES - room(rng, needs.node_entries));
    }
    let nodes = MAX_NODES - list.nodes.len();
    let left = room(rng, needs.sorts);
    if rng.chance(50) {
        let nodes = if rng.chance(50) { rng.below(nodes + 1) } else { 0 };
        let sorts = MAX_SORTS - list.sorts.len() - left;
        pad::before(&mut list, sorts, nodes);
    }
    pad::sorts(&mut list, MAX_SORTS - left);
    list
}
