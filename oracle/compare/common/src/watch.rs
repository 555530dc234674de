//! Ends the program if the port does not answer.

use std::process;
use std::sync::Arc;
use std::sync::atomic::AtomicU64;
use std::sync::atomic::Ordering;
use std::thread;
use std::time::Duration;

/// No list takes so long.
const PATIENCE: Duration = Duration::from_secs(120);

pub struct Watch {
    number: Arc<AtomicU64>,
}

impl Watch {
    /// Begins to watch; `what` says which lists.
    pub fn start(what: String) -> Watch {
        let number = Arc::new(AtomicU64::new(u64::MAX));
        let watched = Arc::clone(&number);
        thread::spawn(move || {
            let mut last = u64::MAX;
            loop {
                thread::sleep(PATIENCE);
                let number = watched.load(Ordering::Relaxed);
                if number == last {
                    eprintln!("{what} number {number}: no answer in {} s", PATIENCE.as_secs());
                    process::exit(1);
                }
                last = number;
            }
        });
        Watch { number }
    }

    /// The number of the list that is asked about now.
    pub fn at(&self, number: u64) {
        self.number.store(number, Ordering::Relaxed);
    }
}
