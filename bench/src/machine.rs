//! How busy the machine is with other work, from the kernel's counters, and what the libraries were made with.

use std::fs;
use std::process::Command;
use std::thread::sleep;
use std::time::Duration;
use std::time::Instant;

/// Other work on a quiet machine takes at most so much of a core.
pub const QUIET: f64 = 0.1;

const TICKS_PER_SECOND: f64 = 100.0;

/// What this program and its children use is taken off.
pub struct Watch {
    start: Instant,
    all: f64,
    own: f64,
}

impl Watch {
    pub fn start() -> Watch {
        Watch {
            start: Instant::now(),
            all: all_ticks(),
            own: own_ticks(),
        }
    }

    /// How many cores other work took since the start.
    pub fn others(&self) -> f64 {
        let ticks = (all_ticks() - self.all) - (own_ticks() - self.own);
        (ticks / TICKS_PER_SECOND / self.start.elapsed().as_secs_f64()).max(0.0)
    }
}

/// How many cores other work takes now.
pub fn others_now() -> f64 {
    let watch = Watch::start();
    sleep(Duration::from_secs(3));
    watch.others()
}

/// The name of the processor.
pub fn processor() -> String {
    let text = fs::read_to_string("/proc/cpuinfo").unwrap_or_default();
    let line = text.lines().find(|line| line.starts_with("model name"));
    line.and_then(|line| line.split_once(": "))
        .map_or("an unknown processor", |(_, name)| name)
        .trim()
        .to_string()
}

/// The name of the Rattle toolchain, the first word that `rt version` prints.
pub fn toolchain() -> String {
    let output = Command::new("rt").arg("version").output();
    let text = output.map_or(String::new(), |output| {
        String::from_utf8_lossy(&output.stdout).into_owned()
    });
    text.split_whitespace()
        .next()
        .unwrap_or("an unknown toolchain")
        .to_string()
}

/// Ticks of all cores that were not idle: of the first line of /proc/stat all but idle and waiting.
fn all_ticks() -> f64 {
    let text = fs::read_to_string("/proc/stat").unwrap_or_default();
    let fields: Vec<f64> = numbers(text.lines().next().unwrap_or_default());
    fields
        .iter()
        .take(8)
        .enumerate()
        .filter(|(index, _)| !matches!(index, 3 | 4))
        .map(|(_, ticks)| ticks)
        .sum()
}

/// Ticks of this program and of its children that have ended: after the name in brackets, fields 12 to 15.
fn own_ticks() -> f64 {
    let text = fs::read_to_string("/proc/self/stat").unwrap_or_default();
    let rest = text.rsplit_once(") ").map_or("", |(_, rest)| rest);
    rest.split(' ')
        .skip(11)
        .take(4)
        .filter_map(|word| word.parse::<f64>().ok())
        .sum()
}

fn numbers(line: &str) -> Vec<f64> {
    line.split_whitespace()
        .filter_map(|word| word.parse().ok())
        .collect()
}
