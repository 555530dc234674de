//! Times the proved libraries and the plain excerpt of merc on the same inputs, in one run, and writes what it found as
//! tables and as a plot.

mod count;
mod machine;
mod plot;
mod report;
mod sections;
mod series;

use std::fs;
use std::path::Path;
use std::process::ExitCode;

use common::clock::Clock;
use common::options;
use common::options::Failure;
use common::options::Options;
use sections::Asked;
use series::Before;

/// With `save` checks and interning are timed alone and kept in that file; `before` is such a file of another run. `side` and `list`
/// are for the runs under callgrind, which `count.rs` starts.
const DEFAULTS: [(&str, &str); 9] = [
    ("out", "../docs"),
    ("seed", "1"),
    ("lists", "40"),
    ("repeats", "20"),
    ("busy", "refuse"),
    ("save", ""),
    ("before", ""),
    ("side", ""),
    ("list", ""),
];

fn main() -> ExitCode {
    options::main("bench", &DEFAULTS, run)
}

fn run(options: &Options) -> Result<(), Failure> {
    if cfg!(debug_assertions) {
        return Err(Failure::Run(
            "build it with `cargo build --profile timing`".to_string(),
        ));
    }
    let seed = options.number("seed")?;
    if !options.text("side").is_empty() {
        return count::calls(options.text("list"), options.text("side"), seed)
            .map_err(Failure::Option);
    }
    let before = before(options.text("before"))?;
    let others = machine::others_now();
    if others > machine::QUIET && options.text("busy") != "measure" {
        let what =
            format!("other work takes {others:.2} of a core; ratios of a busy machine tell little");
        return Err(Failure::Run(format!(
            "{what}. `--busy measure` measures all the same, and says so"
        )));
    }
    let watch = machine::Watch::start();
    let asked = Asked {
        clock: Clock::calibrated(),
        seed,
        lists: options.number("lists")? as usize,
        repeats: options.number("repeats")? as usize,
    };
    let series = series::measured(&asked);
    let save = Path::new(options.text("save"));
    if save != Path::new("") {
        let said = report::run(&asked, watch.others());
        return written(save, series::file(&series, &said));
    }
    let (tables, growth) = (sections::tables(&asked), sections::growth(&asked));
    let others = watch.others();
    let counts = count::all(seed);
    let report = report::report(
        &asked,
        others,
        &tables,
        &growth,
        &series,
        before.as_ref(),
        &counts,
    );
    let out = Path::new(options.text("out"));
    written(&out.join("BENCH.md"), report)?;
    written(
        &out.join("bench.svg"),
        plot::plot(&tables, &growth, &series, before.as_ref()),
    )
}

/// What another run found, where a file of it is given.
fn before(path: &str) -> Result<Option<Before>, Failure> {
    if path.is_empty() {
        return Ok(None);
    }
    let text =
        fs::read_to_string(path).map_err(|failure| Failure::Run(format!("{path}: {failure}")))?;
    Before::read(&text)
        .map(Some)
        .map_err(|message| Failure::Run(format!("{path}, {message}")))
}

fn written(path: &Path, text: String) -> Result<(), Failure> {
    let name = path.display();
    fs::write(path, text).map_err(|failure| Failure::Run(format!("{name}: {failure}")))?;
    println!("bench: {name} is written");
    Ok(())
}
