//! The words in which the list program speaks. They are the port's own (`crates/list_messages/specs`,
//! `crates/list_verdict/specs/Words.antt`), copied; which of them is due is worked out here.

pub const PRINTABLE: &str = "printable ASCII, no tab and no CR";
pub const LENGTH: &str = "at most 200 bytes";
pub const NO_LIST: &str = "list before any other line";
pub const NO_QUESTION: &str = "a question before an answer";
pub const AFTER_QUESTION: &str = "?, = or list after a question";
pub const NEXT: &str = "the next number in the name of the new row";
pub const UNBOUND: &str = "a variable of a line above that has no binding yet";
pub const NAMES: &str = "at most 512 base names, which is what this program holds";
pub const OTHER_QUESTION: &str = "? solve: no other question is answered here";
pub const UNASKED: &str = "nothing is asked about this list";

/// What is expected of a line by its first word.
pub fn form(keyword: &str) -> &'static str {
    match keyword {
        "?" => "? solve, or another question of the format",
        "bare" => "bare, before any other sort",
        "sort" => {
            "sort sK List S (or Set, FSet, Bag, FBag), sort sK fn S ... -> S, sort sK Def N, sort sK TypeVar N, sort sK unit or sort sK raw N N N N"
        }
        "node" => {
            "node nK List P (or Set, FSet, Bag, FBag), node nK fn P ... -> P, node nK var vN or node nK raw N N N N"
        }
        "entries" => "entries N ...",
        "node-entries" => "node-entries N ...",
        "pad" => "pad sorts N, pad entries N, pad nodes N or pad node-entries N",
        "var" => "var vK nJ",
        "vars" => "vars N",
        "bind" => "bind vN P",
        "expr" => "expr eK P",
        "name" => "name eN variable, name eN builtin, name eN op S or name eN raw N N",
        "default" => "default S",
        "sub" => "sub P P",
        "lit" => "lit P positive or lit P natural",
        "comprehension" => "comprehension P P S",
        "disjunction" => "disjunction eN P",
        "overload" => "overload variable P, overload builtin P, overload op S P or overload raw N N N",
        "join" => "join P P ...",
        "sources" => "sources P ...",
        "constraint" => "constraint N N N N N",
        "count" => {
            "count WHAT N, where WHAT is sorts, entries, nodes, node-entries, vars, exprs, names, constraints, overloads or sources"
        }
        "lend" => {
            "lend WHAT N, where WHAT is sorts, nodes, bindings, exprs, names, constraints, overloads, sources, scratch, index, out-typing, out-measure or out-choices"
        }
        "ceilings" => "no ceilings line: this program has the fixed ceilings",
        _ => "a word that begins a line of the format",
    }
}

/// What a code says.
pub fn of_code(code: u16) -> &'static str {
    match code {
        0 => "a typing",
        1 => "a list is above its ceiling or longer than what is lent for it",
        2 => "the first six sorts are not unit, Bool, Pos, Nat, Int, Real",
        3 => "a sort has an unknown kind, above 16 arguments, a run off its list or a part not below it",
        4 => "two sorts are equal",
        5 => {
            "a node has an unknown kind, above 16 arguments, a run off its list, or a part or variable that is not there"
        }
        6 => "a binding names neither a sort nor a node",
        7 => "a variable reaches itself",
        8 => "a place of an expression, or a base name, names nothing",
        9 => "a constraint has an unknown kind, a run off its list, or names what is not there",
        10 => "two disjunctions, or two base names, are for one expression",
        11 => "a join has no sources, or there are more than 256 components",
        12 => "the default sort is not in the list",
        14 => "an output, the scratch, the index, or the storage of sorts or nodes is too short",
        15 => "the search has no room for a new sort",
        16 => "the search has no room for a new node",
        17 => "no typing found",
        18 => "ambiguous: several leaves have the least measure",
        code => panic!("{code} is no code of the solver"),
    }
}
