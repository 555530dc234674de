//! Writes lists with the excerpt's answers as an antt module: one proof computes every one of them by the definition
//! of the search (crates/inference/specs) and compares.

use lists::given::Counted;
use lists::given::Given;
use lists::given::Lent;
use lists::memory::*;
use lists::verdict::Heard;
use lists::verdict::Reply;
use lists::verdict::Shape;
use lists::verdict::Verdict;

use crate::ask::Asked;

/// Equal words or rows in a row, from which on they are said at once.
const WORTH_REPEATING: usize = 8;

/// What stands before the lists. Imports that none of them needs are left out of it.
const HEAD: &str = "\
-- Lists with the answers of the excerpt of merc, computed by the definition that the solver's contract cites: code, sorts and names of the
-- expressions, measure, choices, and the sorts that are kept. Written by oracle/computed.sh. By computation. Assumes nothing.
use mathlib.Core.Path.{◌≡◌, refl}
use mathlib.Core.List.{List, [], ◌∷◌, ◌++◌, map}
use Prim.Native.Nat.{ℕ, zero, suc, ◌+◌, ◌*◌, ◌-◌}
use lib.ListN.{length, replicate, take, drop}
use Rattle.std.specs.Prelude.{Ok, Err}
use Rattle.resolved_sort.specs.Checks.{code_of}
use Rattle.resolved_sort.specs.declared.Counts.{Counts}
use Rattle.inference.specs.declared.Verdict.TheVariants.{NoTyping, Ambiguous, Typing}
use Rattle.inference.specs.Search.{Choice}
use Rattle.inference.specs.SolveEntry.{Solved, SolveLeft, code_solved, measure_out, choices_out}
use Rattle.inference.specs.Situations.{GivenList, solved_list, four_words, row_sub, row_lit, row_disjunction, row_comprehension, row_join}

given : List ℕ → List ℕ → List ℕ → List ℕ → List ℕ → List ℕ → List ℕ → List ℕ → List ℕ → List ℕ → ℕ → GivenList
given sorts entries nodes arguments binds exprs names constraints overloads sources default =
    record {
      sorts = sorts;
      entries = entries;
      nodes = nodes;
      arguments = arguments;
      binds = binds;
      exprs = exprs;
      names = names;
      constraints = constraints;
      overloads = overloads;
      sources = sources;
      default = default;
    }

-- the code; for a typing the rows of expressions, the measure and the choices; the rows and the entries of new sorts, in order of making
pub record Outcome : Type 0 where
  pub code : ℕ
  pub typing : List ℕ
  pub measure : List ℕ
  pub choices : List Choice
  pub rows : List ℕ
  pub entries : List ℕ

outcome : ℕ → List ℕ → List ℕ → List Choice → List ℕ → List ℕ → Outcome
outcome code typing measure choices rows entries =
    record { code = code; typing = typing; measure = measure; choices = choices; rows = rows; entries = entries }

-- the words from a up to b
between : ℕ → ℕ → List ℕ → List ℕ
between a b ws = take (b - a) (drop a ws)

-- k counts the sorts that are kept
keeping : GivenList → SolveLeft → Counts → List ℕ → List ℕ → List Choice → Outcome
keeping G L k typing measure choices =
    outcome (code_solved L.answer) typing measure choices (between (24 + length G.sorts) (4 * k.sorts) L.sorts)
    (between (4096 + length G.entries) (4096 + k.entries) L.sorts)

abbrev outcome_by : GivenList → SolveLeft → Solved → Outcome
outcome_by G L (Err r) = outcome (code_of r) [] [] [] [] []
outcome_by G L (Ok (NoTyping k)) = keeping G L k [] [] []
outcome_by G L (Ok (Ambiguous k)) = keeping G L k [] [] []
outcome_by G L (Ok (Typing o)) = keeping G L o.counts (take (3 * length G.exprs) L.typing) (measure_out L o) (choices_out L o)

pub outcome_of : GivenList → Outcome
outcome_of G = outcome_by G (solved_list G) (solved_list G).answer

-- an expression of a typing: its sort, kind of name and sort of name
expr : ℕ → ℕ → ℕ → List ℕ → List ℕ
expr sort kind name ws = sort ∷ kind ∷ name ∷ ws

choice : ℕ → ℕ → List Choice → List Choice
choice x i cs = record { expr = x; position = i } ∷ cs

-- a list and the excerpt's answer
abbrev Case : Type 0
Case = GivenList × Outcome
";

/// What the proof opens of [HEAD] and of the builders.
const OPENED: &str = "solved_list four_words row_sub row_lit row_disjunction row_comprehension row_join given outcome between keeping outcome_of expr choice";

/// Builders for padded lists.
const DEFS: &str = "defs ";
const REPEATED: &str = "repeated ";
const PADDING: &str = "\
-- n sorts more, Def i, Def (i + 1) and so on
defs : ℕ → ℕ → List ℕ → List ℕ
defs i zero ws = ws
defs i (suc n) ws = four_words 12 i 0 0 (defs (i + 1) n ws)

-- n times the row of a kind and a part
repeated : ℕ → ℕ → ℕ → List ℕ → List ℕ
repeated zero kind part ws = ws
repeated (suc n) kind part ws = four_words kind part 0 0 (repeated n kind part ws)

";
const PADDING_OPENED: &str = " defs repeated";

/// What a proof over refused lists opens besides: the number of a refusal.
const REFUSED_OPENED: &str = " code_of";

/// A list and its answer in antt.
pub struct Case {
    title: String,
    given: String,
    outcome: String,
    padded: bool,
    refused: bool,
}

impl Case {
    /// Says a list and its answer; or why that cannot be.
    pub fn new(list: &Given, asked: &Asked) -> Result<Case, String> {
        sayable(list)?;
        let (given, outcome) = (given(list), outcome(list, asked));
        let padded = [DEFS, REPEATED].iter().any(|builder| given.contains(builder));
        let refused = (1..=16).contains(&asked.answer.code);
        Ok(Case { title: list.title.clone(), given, outcome, padded, refused })
    }
}

/// A module over cases, `each` of them to a proof.
pub fn module(cases: &[Case], each: usize) -> String {
    let mut head = HEAD.to_string();
    let (mut padding, mut opened) = (PADDING, PADDING_OPENED);
    if !cases.iter().any(|case| case.padded) {
        head = head.replacen("zero, suc, ", "", 1);
        (padding, opened) = ("", "");
    }
    if !cases.iter().any(|case| case.given.contains(" ++")) {
        head = head.replacen("◌++◌, ", "", 1);
    }
    let groups: Vec<&[Case]> = cases.chunks(each).collect();
    let number = |index: usize| if groups.len() == 1 { String::new() } else { (index + 1).to_string() };
    let proofs = groups.iter().enumerate().map(|(index, cases)| proof(&number(index), cases, opened));
    format!("{head}\n{padding}{}", proofs.collect::<Vec<_>>().join("\n"))
}

fn proof(number: &str, cases: &[Case], opened: &str) -> String {
    let mut list = String::new();
    for (index, case) in cases.iter().enumerate() {
        let cons = if index == 0 { "" } else { "∷ " };
        list += &format!("    -- {}\n    {cons}(\n      {},\n      {},\n    )\n", case.title, case.given, case.outcome);
    }
    let numbered = if cases.iter().any(|case| case.refused) { REFUSED_OPENED } else { "" };
    format!(
        "pub cases{number} : List Case
cases{number} =
{list}    ∷ []

pub compared{number} : map (λ (c : Case). outcome_of c.0) cases{number} ≡ map (λ (c : Case). c.1) cases{number}
unfolding {OPENED}{opened}{numbered} cases{number}
compared{number} = refl
"
    )
}

/// The definition has document 01's ceilings, and a case has the fixed six sorts, counts as rows and full lengths.
fn sayable(list: &Given) -> Result<(), String> {
    if list.ceilings != Ceilings::default() {
        return Err("has ceilings of its own".to_string());
    }
    if let Some((_, name)) = Counted::ALL.iter().find(|(counted, _)| list.said_count(*counted).is_some()) {
        return Err(format!("has a count of {name} of its own"));
    }
    if let Some((_, name)) = Lent::ALL.iter().find(|(lent, _)| list.said_lend(*lent).is_some()) {
        return Err(format!("has a length of {name} of its own"));
    }
    let six = Given::new("").sorts;
    if !list.sorts.starts_with(&six) {
        return Err("does not begin with the fixed six sorts".to_string());
    }
    Ok(())
}

fn given(list: &Given) -> String {
    let lists = [
        rows(&list.sorts[usize::from(kind::LIST)..], Some(usize::from(kind::LIST))),
        words(&list.entries),
        rows(&list.nodes, None),
        words(&list.node_entries),
        words(&list.bindings),
        words(&list.exprs),
        words(&list.names.concat()),
        constraints(&list.constraints),
        words(&list.overloads.concat()),
        words(&list.sources),
    ];
    format!("given {} {}", lists.map(bracketed).join(" "), list.default)
}

fn outcome(list: &Given, asked: &Asked) -> String {
    let new = asked.heard.as_ref().map_or(&[][..], |heard| &heard.new);
    let (new_rows, new_entries) = laid_out(new, list.entries.len());
    let (new_rows, new_entries) = (rows(&new_rows, None), words(&new_entries));
    let code = asked.answer.code;
    match &asked.heard {
        Some(Heard { reply: Reply::Solve(Verdict::Typing { sorts, names, measure }), .. }) => {
            let exprs = sorts.iter().zip(names).map(|(sort, (kind, name))| format!("expr {sort} {kind} {name}"));
            let choices = asked.tally.choices_rising();
            let choices = choices.iter().map(|(expression, position)| format!("choice {expression} {position}"));
            let measure: Vec<u16> = measure.iter().map(|&component| component.into()).collect();
            format!(
                "outcome {code} {} {} {} {} {}",
                bracketed(nested(exprs.collect())),
                bracketed(words(&measure)),
                bracketed(nested(choices.collect())),
                bracketed(new_rows),
                bracketed(new_entries)
            )
        }
        _ => format!("outcome {code} [] [] [] {} {}", bracketed(new_rows), bracketed(new_entries)),
    }
}

/// The rows of new sorts and their entries, after the entries given.
fn laid_out(new: &[Shape], given: usize) -> (Vec<Row>, Vec<u16>) {
    let mut entries = Vec::new();
    let mut rows = Vec::new();
    for shape in new {
        rows.push(match shape.kind {
            kind::FUNCTION => Row {
                kind: shape.kind,
                part: shape.part,
                start: (given + entries.len()) as u16,
                count: shape.arguments.len() as u16,
            },
            kind => Row::plain(kind, shape.part),
        });
        entries.extend(&shape.arguments);
    }
    (rows, entries)
}

/// Rows; equal ones are said at once, and in a list whose first row has this number also the sorts that pad it.
fn rows(rows: &[Row], first: Option<usize>) -> String {
    let mut builders = Vec::new();
    let mut at = 0;
    while let Some(&row) = rows.get(at) {
        let same = count(&rows[at..], |_, other| other == row);
        let padding = first.map_or(0, |first| {
            count(&rows[at..], |index, other| other == Row::plain(kind::DEF, (first + at + index) as u16))
        });
        if padding >= WORTH_REPEATING {
            builders.push(format!("{DEFS}{} {padding}", row.part));
            at += padding;
        } else if same >= WORTH_REPEATING && row == Row::plain(row.kind, row.part) {
            builders.push(format!("{REPEATED}{same} {} {}", row.kind, row.part));
            at += same;
        } else {
            builders.push(format!("four_words {} {} {} {}", row.kind, row.part, row.start, row.count));
            at += 1;
        }
    }
    nested(builders)
}

/// How many elements from the first on pass a test.
fn count<T: Copy>(list: &[T], passes: impl Fn(usize, T) -> bool) -> usize {
    list.iter().enumerate().take_while(|&(index, &element)| passes(index, element)).count()
}

fn constraints(rows: &[[u16; CONSTRAINT]]) -> String {
    let builders = rows.iter().map(|&[kind, a, b, c, d]| match kind {
        constraint::SUB => format!("row_sub {a} {b}"),
        constraint::LIT => format!("row_lit {a} {b}"),
        constraint::DISJUNCTION => format!("row_disjunction {a} {b} {c} {d}"),
        constraint::COMPREHENSION => format!("row_comprehension {a} {b} {c}"),
        constraint::JOIN => format!("row_join {a} {b} {c}"),
        _ => format!("({kind} ∷ {a} ∷ {b} ∷ {c} ∷ {d} ∷ []) ++"),
    });
    nested(builders.collect())
}

/// Words of a list; many equal ones are said at once.
fn words(list: &[u16]) -> String {
    let mut text = "[]".to_string();
    let mut end = list.len();
    while end > 0 {
        let word = list[end - 1];
        let same = list[..end].iter().rev().take_while(|&&other| other == word).count();
        if same >= WORTH_REPEATING {
            text = match text.as_str() {
                "[]" => format!("replicate {same} {word}"),
                _ => format!("replicate {same} {word} ++ ({text})"),
            };
            end -= same;
        } else {
            let rest = if text.starts_with("replicate") { format!("({text})") } else { text };
            text = format!("{word} ∷ {rest}");
            end -= 1;
        }
    }
    text
}

/// Builders, each with what follows as its last argument.
fn nested(builders: Vec<String>) -> String {
    builders.iter().rfold("[]".to_string(), |rest, builder| format!("{builder} {}", bracketed(rest)))
}

fn bracketed(text: String) -> String {
    if text.contains(' ') { format!("({text})") } else { text }
}
