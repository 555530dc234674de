//! Prints lists with the answers of the excerpt of merc, for a program that replays them. The port's library is not
//! asked.

use std::collections::BTreeMap;
use std::process::ExitCode;

use common::options;
use common::options::Failure;
use common::options::Options;
use lists::question::Question;
use lists::write::list_text;
use lists::write::question_line;
use oracle::ask::ask;
use solve::cases::sample;

fn main() -> ExitCode {
    options::main("oracle-solve-sample", &[("seed", "1")], run)
}

fn run(options: &Options) -> Result<(), Failure> {
    let seed = options.number("seed")?;
    let (mut text, mut codes) = (String::new(), BTreeMap::<u16, usize>::new());
    let lists = sample(seed);
    for list in &lists {
        let asked = ask(&list.memory(), Question::Solve).map_err(|failure| Failure::Run(failure.to_string()))?;
        *codes.entry(asked.answer.code).or_default() += 1;
        text += &format!("{}{}\n{}\n", list_text(list), question_line(Question::Solve), asked.answer.without("nodes"));
    }
    let codes: Vec<String> = codes.iter().map(|(code, count)| format!("{code}: {count}")).collect();
    print!("{}{text}", header(seed, lists.len(), &codes.join(", ")));
    Ok(())
}

fn header(seed: u64, lists: usize, codes: &str) -> String {
    format!(
        "# {lists} lists for the solver in the form of docs/FORMAT.md, each with its answer. Answers by code: {codes}.
# Made in the folder oracle by: target/release/oracle-solve-sample --seed {seed} > lists/recorded.txt
# The answers are those of the excerpt of merc; refusals are those of the model of the checks (lists/src/checks.rs).
# First the lists of situations.txt and readings.txt that ask for the search; where one has a line `ceilings`, the same
# room is left by `pad`. Then random ones: the title is the class of oracle-solve-compare and the number under seed {seed}.
# Then ones of class choice that have a typing and disjunctions out of expression order.
# Then damaged ones, by their numbers in `oracle-gen --class damaged --seed {seed} --size 1`.
"
    )
}
