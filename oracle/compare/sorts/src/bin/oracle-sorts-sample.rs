//! Prints questions with the answers of the excerpt of merc, for a program that replays them. The
//! proved library is not asked.

use std::process::ExitCode;

use common::options;
use common::options::Failure;
use common::options::Options;
use sorts::cases::sample;
use sorts::expected::expected;
use sorts::text::list_text;
use sorts::text::question_text;

fn main() -> ExitCode {
    options::main("oracle-sorts-sample", &[("seed", "1")], run)
}

fn run(options: &Options) -> Result<(), Failure> {
    let seed = options.number("seed")?;
    let cases = sample(seed);
    let questions: usize = cases.iter().map(|case| case.questions.len()).sum();
    print!("{}", header(seed, cases.len(), questions));
    for case in &cases {
        print!("{}", list_text(&case.call.memory));
        for &question in &case.questions {
            let expected = expected(&case.call.memory, question).map_err(Failure::Run)?;
            print!("{}", question_text(question, expected.packed()));
        }
    }
    Ok(())
}

fn header(seed: u64, lists: usize, questions: usize) -> String {
    format!(
        "# {lists} lists of sorts and {questions} questions about them with their answers.
# Made in the folder oracle by: target/release/oracle-sorts-sample --seed {seed} > ../crates/replay_sorts/stdin
# The answers are those of the excerpt of merc; refusals are those of the model of the checks (lists/src/checks.rs).
# L n e: a list of n sorts and e entries, in n lines r and as many lines a as they need
# r kind part start count: a row; a word...: at most 16 entries
# c, d, m, j, k, then two sorts and the packed answer: partial_cmp, widening_distance, is_materializable, join, meet
# Each question is asked on the list as its lines give it, in storage of 8192 words or more.
"
    )
}
