//! Prints questions with the answers of the excerpt of merc and the bindings of the model, for a
//! program that replays them. The port's library is not asked.

use std::process::ExitCode;

use common::options;
use common::options::Failure;
use common::options::Options;
use unify::cases::sample;
use unify::expected::expected;
use unify::text::list_text;
use unify::text::question_text;

fn main() -> ExitCode {
    options::main("oracle-unify-sample", &[("seed", "1")], run)
}

fn run(options: &Options) -> Result<(), Failure> {
    let seed = options.number("seed")?;
    let (mut text, mut lists, mut questions) = (String::new(), 0, 0);
    for case in sample(seed) {
        lists += 1;
        text += &list_text(&case.memory);
        for (lhs, rhs) in case.pairs {
            if let Some(asked) = expected(&case.memory, lhs, rhs).map_err(Failure::Run)? {
                questions += 1;
                text += &question_text(&case.memory, (lhs, rhs), &asked.expected);
            }
        }
    }
    print!("{}{text}", header(seed, lists, questions));
    Ok(())
}

fn header(seed: u64, lists: usize, questions: usize) -> String {
    format!(
        "# {lists} lists of sorts, nodes and bindings, and {questions} questions whether two places unify, with their answers.
# Made in the folder oracle by: target/release/oracle-unify-sample --seed {seed} > ../crates/replay_unify/stdin
# The answers are those of the excerpt of merc; the bindings are those of a model of document 01 (compare/unify/src/model.rs), and
# merc says the same of what each variable stands for. Refusals are those of the model of the checks (lists/src/checks.rs).
# L s e n f v: a list of s sorts, e entries, n nodes, f node entries and v variables; the lines of each follow
# r kind part start count: a sort; a word...: at most 16 entries
# n kind part start count: a node; b word...: at most 16 node entries; v word...: at most 16 bindings
# w variable place: a binding that the next question makes
# u lhs rhs answer: a question; 256 is yes, 0 is no, else the code of a refusal. All bindings but those of the lines w
# before it are as at entry.
# Each question is asked on the list as its lines give it, in storage of 8192 words for sorts and 12288 for nodes, or more.
"
    )
}
