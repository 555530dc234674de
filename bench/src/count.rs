//! Instructions of a call, counted by callgrind: the program runs itself under it, and only the named functions below are
//! counted.

use std::env;
use std::hint::black_box;
use std::process::Command;

use common::junk::Junk;
use lists::verdict::Verdict;
use merc_plain::Listed;
use solve::call::Call;
use solve::call::Lent;
use solve::cases::Timed;
use solve::speed;

/// So many calls are counted together.
const CALLS: u64 = 8;

const LISTS: [(&str, &str, Timed); 3] = [
    ("small", "a small list", Timed::Small),
    (
        "large",
        "256 constraints, 512 variables",
        Timed::LongAndWide,
    ),
    (
        "compared",
        "250 components, 6 choices last",
        Timed::LongMeasure,
    ),
];

/// The instructions of one call on each side.
pub struct Count {
    pub name: &'static str,
    pub constraints: usize,
    pub variables: usize,
    pub port: u64,
    pub checks: u64,
    pub merc: u64,
    pub load: u64,
}

fn call(timed: Timed, seed: u64) -> Call {
    let junk = Junk::new(seed);
    let mut calls = (0..).map(|index| timed.call(&junk, seed, index));
    calls.find(speed::ends).expect("there is no end of lists")
}

#[unsafe(no_mangle)]
#[inline(never)]
fn bench_port(lent: &mut Lent, call: &Call) -> u64 {
    speed::port(lent, call)
}

#[unsafe(no_mangle)]
#[inline(never)]
fn bench_merc(listed: &mut Listed) -> Verdict {
    speed::merc(listed)
}

#[unsafe(no_mangle)]
#[inline(never)]
fn bench_load(call: &Call) -> Listed<'_> {
    speed::load(call)
}

/// Makes the calls of one side about one list, from the same state each.
pub fn calls(list: &str, side: &str, seed: u64) -> Result<(), String> {
    let found = LISTS.iter().find(|(name, ..)| *name == list);
    let &(_, _, timed) = found.ok_or_else(|| format!("no list `{list}`"))?;
    let call = call(timed, seed);
    let short = speed::checks_alone(&call);
    for _ in 0..CALLS {
        match side {
            "port" => drop(black_box(bench_port(&mut Lent::new(&call), &call))),
            "checks" => drop(black_box(bench_port(&mut Lent::new(&short), &short))),
            "merc" => drop(black_box(bench_merc(&mut speed::load(&call)))),
            "load" => drop(black_box(bench_load(&call))),
            side => return Err(format!("no side `{side}`")),
        }
    }
    Ok(())
}

/// All counts; none where valgrind is not there.
pub fn all(seed: u64) -> Vec<Count> {
    let counted = |&(list, name, timed): &(&str, &'static str, Timed)| {
        let memory = call(timed, seed).memory;
        let [port, checks, merc, load] =
            ["port", "checks", "merc", "load"].map(|side| instructions(list, side, seed));
        Some(Count {
            name,
            constraints: memory.constraint_count,
            variables: memory.variable_count,
            port: port?,
            checks: checks?,
            merc: merc?,
            load: load?,
        })
    };
    LISTS.iter().filter_map(counted).collect()
}

/// Keeps the C library from clearing and copying by repeated instructions, of which callgrind counts one for each byte.
const TUNABLES: &str =
    "glibc.cpu.x86_rep_stosb_threshold=0x1000000:glibc.cpu.x86_rep_movsb_threshold=0x1000000";

fn instructions(list: &str, side: &str, seed: u64) -> Option<u64> {
    let function = if side == "checks" { "port" } else { side };
    let output = Command::new("valgrind")
        .args([
            "--tool=callgrind",
            "--callgrind-out-file=/dev/null",
            &format!("--toggle-collect=bench_{function}"),
        ])
        .env("GLIBC_TUNABLES", TUNABLES)
        .arg(env::current_exe().ok()?)
        .args(["--list", list, "--side", side, "--seed", &seed.to_string()])
        .output()
        .ok()?;
    let text = String::from_utf8_lossy(&output.stderr).into_owned();
    let line = text.lines().find(|line| line.contains("Collected :"))?;
    line.rsplit(' ')
        .next()?
        .parse::<u64>()
        .ok()
        .map(|count| count / CALLS)
}
